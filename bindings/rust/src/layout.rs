//! The two layouts of a book, turning one into the other, and every call that is lent a book, in either.

use crate::raw;
use crate::{Chosen, Loaded, Moved, Plan, Refusal, Which};

/// The order of a book's words. The functions of this crate take books by node; the methods here are the same calls for books of one of
/// the layouts: every book that is lent is in it, and so is every book that is written. Answers and refusals are the same in both. A sheet
/// has one layout only. No word tells the layout: a book in the other one is judged as what its words say there, and as a rule refused as
/// torn.
///
/// ```
/// use himm::Layout;
/// let (mut book, mut sheet) = (vec![0; himm::BOOK_WORDS], vec![0; himm::SHEET_WORDS]);
/// Layout::ByCommand.open_ladder(&mut book, &mut sheet)?;
/// // The transitions of all nodes for command 1: from node 0 to 1 and from 1 to 2 at cost 1, none from node 2.
/// assert_eq!(book[himm::NODES..][..3], [0x1_0001, 0x2_0001, u32::MAX]);
/// let mut turned = vec![0; himm::BOOK_WORDS];
/// himm::by_node(&book, &mut turned)?;
/// assert_eq!(Layout::ByCommand.step(&book, 1, 1)?, himm::step(&turned, 1, 1)?);
/// # Ok::<(), himm::Refusal>(())
/// ```
#[derive(Clone, Copy, Debug, PartialEq, Eq)]
pub enum Layout {
    /// Document 01's layout: the transitions of each node behind one another, by command.
    ByNode,
    /// The transitions of all nodes for command 0, then those for command 1 and so on, and then the other words in their old order.
    ByCommand,
}

use Layout::ByNode;

/// Writes a book by node into another list by command. Any words are taken; only a wrong length of one of the lists is refused.
pub fn by_command(book: &[u32], out: &mut [u32]) -> Result<(), Refusal> {
    // SAFETY: each pointer is that of a slice, passed with the slice's length; mutable slices overlap nothing. So in every call below.
    Refusal::check(unsafe { raw::himm_by_command(book.as_ptr(), book.len(), out.as_mut_ptr(), out.len()) })
}

/// Writes a book by command into another list by node, likewise.
pub fn by_node(book: &[u32], out: &mut [u32]) -> Result<(), Refusal> {
    Refusal::check(unsafe { raw::himm_by_node(book.as_ptr(), book.len(), out.as_mut_ptr(), out.len()) })
}

impl Layout {
    /// As [`open_fresh`](crate::open_fresh).
    pub fn open_fresh(self, book: &mut [u32], sheet: &mut [u32]) -> Result<(), Refusal> {
        let call = if self == ByNode { raw::himm_open_fresh } else { raw::himm_open_fresh_by_command };
        Refusal::check(unsafe { call(book.as_mut_ptr(), book.len(), sheet.as_mut_ptr(), sheet.len()) })
    }

    /// As [`open_ladder`](crate::open_ladder).
    pub fn open_ladder(self, book: &mut [u32], sheet: &mut [u32]) -> Result<(), Refusal> {
        let call = if self == ByNode { raw::himm_open_ladder } else { raw::himm_open_ladder_by_command };
        Refusal::check(unsafe { call(book.as_mut_ptr(), book.len(), sheet.as_mut_ptr(), sheet.len()) })
    }

    /// As [`open_table`](crate::open_table).
    pub fn open_table(self, rows: &[u32], book: &mut [u32], sheet: &mut [u32]) -> Result<(), Refusal> {
        let call = if self == ByNode { raw::himm_open_table } else { raw::himm_open_table_by_command };
        let (b, s) = ((book.as_mut_ptr(), book.len()), (sheet.as_mut_ptr(), sheet.len()));
        Refusal::check(unsafe { call(rows.as_ptr(), rows.len(), b.0, b.1, s.0, s.1) })
    }

    /// As [`load`](crate::load).
    pub fn load(self, book: &mut [u32], sheet: &mut [u32], stream: &[u8]) -> Loaded {
        let call = if self == ByNode { raw::himm_load } else { raw::himm_load_by_command };
        let (b, s) = ((book.as_mut_ptr(), book.len()), (sheet.as_mut_ptr(), sheet.len()));
        let (mut bytes, mut commands) = (0, 0);
        let number = unsafe { call(b.0, b.1, s.0, s.1, stream.as_ptr(), stream.len(), &mut bytes, &mut commands) };
        Loaded { bytes, commands, result: Refusal::check(number) }
    }

    /// As [`exit`](crate::exit).
    pub fn exit(self, book: &[u32], sheet: &[u32], machine: u32, command: u32) -> Result<u32, Refusal> {
        let call = if self == ByNode { raw::himm_exit } else { raw::himm_exit_by_command };
        let mut cost = 0;
        let number = unsafe { call(book.as_ptr(), book.len(), sheet.as_ptr(), sheet.len(), machine, command, &mut cost) };
        Refusal::check(number).map(|()| cost)
    }

    /// As [`step`](crate::step).
    pub fn step(self, book: &[u32], state: u32, command: u32) -> Result<Moved, Refusal> {
        let call = if self == ByNode { raw::himm_step } else { raw::himm_step_by_command };
        let (mut next, mut cost, mut node) = (0, 0, 0);
        let number = unsafe { call(book.as_ptr(), book.len(), state, command, &mut next, &mut cost, &mut node) };
        Refusal::check(number).map(|()| Moved { state: next, cost, node })
    }

    /// As [`plan`](crate::plan).
    pub fn plan<'a>(self, book: &[u32], sheet: &[u32], from: u32, to: u32, buffer: &'a mut [u8]) -> Result<Plan<'a>, Refusal> {
        let call = if self == ByNode { raw::himm_plan } else { raw::himm_plan_by_command };
        let (b, s) = ((book.as_ptr(), book.len()), (sheet.as_ptr(), sheet.len()));
        let (mut cost, mut count) = (0, 0);
        let number = unsafe { call(b.0, b.1, s.0, s.1, from, to, buffer.as_mut_ptr(), buffer.len(), &mut cost, &mut count) };
        Refusal::check(number).map(|()| Plan { cost, commands: &buffer[..count as usize] })
    }

    /// As [`write`](crate::write).
    pub fn write<'a>(self, book: &[u32], out: &'a mut [u8]) -> Result<&'a [u8], Refusal> {
        let call = if self == ByNode { raw::himm_write } else { raw::himm_write_by_command };
        let mut length = 0;
        let number = unsafe { call(book.as_ptr(), book.len(), out.as_mut_ptr(), out.len(), &mut length) };
        Refusal::check(number).map(|()| &out[..length as usize])
    }

    /// As [`choose`](crate::choose).
    pub fn choose<'a>(self, book: &[u32], from: u32, to: u32, first: &'a [u8], second: &'a [u8]) -> Result<Chosen<'a>, Refusal> {
        let call = if self == ByNode { raw::himm_choose } else { raw::himm_choose_by_command };
        let (one, two) = ((first.as_ptr(), first.len()), (second.as_ptr(), second.len()));
        let (mut which, mut used) = (0, 0);
        let number = unsafe { call(book.as_ptr(), book.len(), from, to, one.0, one.1, two.0, two.1, &mut which, &mut used) };
        let (which, list) = if which == 0 { (Which::First, first) } else { (Which::Second, second) };
        Refusal::check(number).map(|()| Chosen { which, part: &list[..used as usize] })
    }

    /// As [`merge`](crate::merge): all three books are in this layout.
    pub fn merge(self, first: &[u32], second: &[u32], book: &mut [u32], sheet: &mut [u32]) -> Result<(), Refusal> {
        let call = if self == ByNode { raw::himm_merge } else { raw::himm_merge_by_command };
        let (one, two) = ((first.as_ptr(), first.len()), (second.as_ptr(), second.len()));
        let (b, s) = ((book.as_mut_ptr(), book.len()), (sheet.as_mut_ptr(), sheet.len()));
        Refusal::check(unsafe { call(one.0, one.1, two.0, two.1, b.0, b.1, s.0, s.1) })
    }

    /// As [`walkers`](crate::walkers).
    pub fn walkers(self, book: &[u32], node: u32, limit: u32, walkers: &[u32]) -> Result<(), Refusal> {
        let call = if self == ByNode { raw::himm_walkers } else { raw::himm_walkers_by_command };
        Refusal::check(unsafe { call(book.as_ptr(), book.len(), node, limit, walkers.as_ptr(), walkers.len()) })
    }

    /// As [`walk`](crate::walk).
    pub fn walk(self, book: &[u32], node: u32, limit: u32, walkers: &mut [u32], walker: u32, command: u32) -> Result<Moved, Refusal> {
        let call = if self == ByNode { raw::himm_walk } else { raw::himm_walk_by_command };
        let (states, count, mut cost, mut acted) = (walkers.as_mut_ptr(), walkers.len(), 0, 0);
        let number = unsafe { call(book.as_ptr(), book.len(), node, limit, states, count, walker, command, &mut cost, &mut acted) };
        Refusal::check(number).map(|()| Moved { state: walkers[walker as usize], cost, node: acted })
    }
}
