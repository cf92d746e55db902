//! Safe calls of Violnebula, a proved planner for hierarchical Mealy machines. What each call does, and which refusals it has in which
//! order, is in `include/himm.h`; here lists are slices and a refusal is an error with a name.
//!
//! Every call is safe on any input: a list of a wrong length, a torn book and a false sheet are refused. A refused call changes nothing
//! that was lent, but for the commands that [`load`] took before the refused one.
//!
//! A book has two layouts. The functions here take books by node; for books by command they are methods of [`Layout::ByCommand`].
//!
//! ```
//! let (mut book, mut sheet) = (vec![0; himm::BOOK_WORDS], vec![0; himm::SHEET_WORDS]);
//! himm::open_ladder(&mut book, &mut sheet)?;
//! himm::load(&mut book, &mut sheet, &[himm::REFRESH]).result?;
//! let mut buffer = [0; himm::PLAN_BYTES];
//! let plan = himm::plan(&book, &sheet, 1, 187, &mut buffer)?;
//! assert_eq!(plan.cost, plan.commands.len() as u32);
//! # Ok::<(), himm::Refusal>(())
//! ```

mod layout;
pub mod raw;
mod refusal;

pub use layout::{by_command, by_node, Layout};
pub use refusal::Refusal;

/// The version of `include/himm.h` that these calls are written for.
pub const VERSION: u32 = 4;

/// Machines, nodes, commands and levels: each number is under its limit.
pub const MACHINES: usize = 64;
pub const NODES: usize = 256;
pub const COMMANDS: usize = 16;
pub const LEVELS: usize = 8;

/// The most walkers of one call, and the highest limit.
pub const WALKERS: usize = 8;

/// The words of a book and of a sheet, which are exact.
pub const BOOK_WORDS: usize = 5057;
pub const SHEET_WORDS: usize = 2880;

/// The words of a row of a table, and the most words of a table.
pub const ROW_WORDS: usize = 3;
pub const TABLE_WORDS: usize = 567;

/// The largest depth of a ladder.
pub const LARGEST_DEPTH: u32 = 6;

/// A word for a number that is not there, as in a row without a machine or without one below.
pub const ABSENT: u32 = 65535;

/// A plan buffer and an output for a stream that are long enough for every book.
pub const PLAN_BYTES: usize = 255;
pub const STREAM_BYTES: usize = 34938;

/// An output that is long enough for every timing that is imported.
pub const IMPORT_BYTES: usize = 8;

/// How many commands of a list [`choose`] looks at.
pub const LIST_COMMANDS: usize = 65536;

/// The opcode of refresh.
pub const REFRESH: u8 = 0x18;

/// The opcode of hold, with a node in two bytes and 1 or 0 after it.
pub const HOLD: u8 = 0x1A;

/// The opcode of leave, with a machine in one byte and what leaving it costs in two, the high byte first, after it.
pub const LEAVE: u8 = 0x1B;

/// What a stream came to: the bytes and commands taken, and how it ended.
#[derive(Clone, Copy, Debug, PartialEq, Eq)]
pub struct Loaded {
    pub bytes: u64,
    pub commands: u64,
    pub result: Result<(), Refusal>,
}

/// What a command did at a state.
#[derive(Clone, Copy, Debug, PartialEq, Eq)]
pub struct Moved {
    /// The state that it led to.
    pub state: u32,
    /// The cost of the transition used, and of leaving each machine below the node's.
    pub cost: u32,
    /// The node whose transition was used: the state that the command was given at, if it has one for it, else the lowest node above it
    /// that has. One into a held node is shut and counts as none. The level of the node's machine is the level that acted.
    pub node: u32,
}

/// A cheapest list of commands, at the front of the lent buffer.
#[derive(Clone, Copy, Debug, PartialEq, Eq)]
pub struct Plan<'a> {
    pub cost: u32,
    pub commands: &'a [u8],
}

/// Which of the two lists was chosen.
#[derive(Clone, Copy, Debug, PartialEq, Eq)]
pub enum Which {
    First,
    Second,
}

/// The used part of the chosen list.
#[derive(Clone, Copy, Debug, PartialEq, Eq)]
pub struct Chosen<'a> {
    pub which: Which,
    pub part: &'a [u8],
}

/// What a probe reads.
#[derive(Clone, Copy, Debug, PartialEq)]
pub enum Reading {
    /// The seconds that a transition took.
    Taken(f32),
    /// The seconds waited for one that did not come to its end. They are not judged.
    Waited(f32),
}

/// A probe's timing of a transition.
#[derive(Clone, Copy, Debug, PartialEq)]
pub struct Timing {
    pub reading: Reading,
    /// The seconds that the probe itself adds to a reading. They are not judged where the transition did not come to its end.
    pub dead_time: f32,
}

/// Makes a book of one machine, the root 0, with its start node 0.
pub fn open_fresh(book: &mut [u32], sheet: &mut [u32]) -> Result<(), Refusal> {
    Layout::ByNode.open_fresh(book, sheet)
}

/// Makes the book of the ladder, 63 machines of three nodes each.
pub fn open_ladder(book: &mut [u32], sheet: &mut [u32]) -> Result<(), Refusal> {
    Layout::ByNode.open_ladder(book, sheet)
}

/// Makes the book of a table of rows, three words each: the machine that a node belongs to, the machine below it or [`ABSENT`], and 1 for
/// its machine's start, else 0. Row n is for node n; an unused row has [`ABSENT`], [`ABSENT`] and 0. The machine that no row has below is
/// the root. Commands 0 and 1 go to the next lower and the next higher node of the machine, at cost 1.
///
/// ```
/// use himm::ABSENT;
/// let (mut book, mut sheet) = (vec![0; himm::BOOK_WORDS], vec![0; himm::SHEET_WORDS]);
/// // Machine 7 has the nodes 0 and 3. Node 3 holds machine 2, which has the nodes 1 and 4. There is no node 2.
/// let rows = [[7, ABSENT, 1], [2, ABSENT, 0], [ABSENT, ABSENT, 0], [7, 2, 0], [2, ABSENT, 1]].concat();
/// himm::open_table(&rows, &mut book, &mut sheet)?;
/// himm::load(&mut book, &mut sheet, &[himm::REFRESH]).result?;
/// let mut buffer = [0; himm::PLAN_BYTES];
/// assert_eq!(himm::plan(&book, &sheet, 0, 1, &mut buffer)?.commands, [1, 0]);
/// assert_eq!(himm::open_table(&rows[3..], &mut book, &mut sheet), Err(himm::Refusal::TornBook));
/// # Ok::<(), himm::Refusal>(())
/// ```
pub fn open_table(rows: &[u32], book: &mut [u32], sheet: &mut [u32]) -> Result<(), Refusal> {
    Layout::ByNode.open_table(rows, book, sheet)
}

/// The rows of the ladder of a depth from 1 to [`LARGEST_DEPTH`], at the front of the lent output, for [`open_table`]: 2 to the depth, less
/// 1, machines of three nodes each. Those of depth 6 give the words that [`open_ladder`] writes.
pub fn ladder(depth: u32, out: &mut [u32]) -> Result<&[u32], Refusal> {
    let mut length = 0;
    // SAFETY: the pointer is that of a mutable slice, passed with the slice's length. So in the import below.
    let number = unsafe { raw::himm_ladder(depth, out.as_mut_ptr(), out.len(), &mut length) };
    Refusal::check(number).map(|()| &out[..length as usize])
}

/// Does the commands of a stream up to its end or the first that is refused.
pub fn load(book: &mut [u32], sheet: &mut [u32], stream: &[u8]) -> Loaded {
    Layout::ByNode.load(book, sheet, stream)
}

/// The exit cost of a machine for a command.
pub fn exit(book: &[u32], sheet: &[u32], machine: u32, command: u32) -> Result<u32, Refusal> {
    Layout::ByNode.exit(book, sheet, machine, command)
}

/// The state that a command leads to, its cost, and the node whose transition was used.
pub fn step(book: &[u32], state: u32, command: u32) -> Result<Moved, Refusal> {
    Layout::ByNode.step(book, state, command)
}

/// A cheapest list of commands from one state to another.
pub fn plan<'a>(book: &[u32], sheet: &[u32], from: u32, to: u32, buffer: &'a mut [u8]) -> Result<Plan<'a>, Refusal> {
    Layout::ByNode.plan(book, sheet, from, to, buffer)
}

/// The stream of a book, at the front of the lent output.
pub fn write<'a>(book: &[u32], out: &'a mut [u8]) -> Result<&'a [u8], Refusal> {
    Layout::ByNode.write(book, out)
}

/// The used part of the cheaper of two lists from one state to another.
pub fn choose<'a>(book: &[u32], from: u32, to: u32, first: &'a [u8], second: &'a [u8]) -> Result<Chosen<'a>, Refusal> {
    Layout::ByNode.choose(book, from, to, first, second)
}

/// Makes one book from two, and its sheet, every machine stale: the first book keeps its numbers, the second's machines and nodes move to
/// the lowest that are unused in the first, and a new root without transitions holds both. The two books may be one and the same.
pub fn merge(first: &[u32], second: &[u32], book: &mut [u32], sheet: &mut [u32]) -> Result<(), Refusal> {
    Layout::ByNode.merge(first, second, book, sheet)
}

/// The bytes that record a timing when they are loaded, at the front of the lent output: they set the transition, with the least whole
/// number that is not below the seconds less the dead time as its cost, that difference rounded once to an `f32`; or they delete it, where
/// it was waited for without an end. The floating-point environment must be the default one, as it is in Rust.
///
/// ```
/// use himm::{Reading, Timing};
/// let mut out = [0; himm::IMPORT_BYTES];
/// let took = Timing { reading: Reading::Taken(1.5), dead_time: 0.25 };
/// assert_eq!(himm::import(1, 1, 2, took, &mut out)?, [0x14, 0, 1, 1, 0, 2, 0, 2]);
/// let waited = Timing { reading: Reading::Waited(60.0), dead_time: 0.25 };
/// assert_eq!(himm::import(1, 1, 2, waited, &mut out)?, [0x15, 0, 1, 1]);
/// # Ok::<(), himm::Refusal>(())
/// ```
pub fn import(node: u32, command: u32, target: u32, timing: Timing, out: &mut [u8]) -> Result<&[u8], Refusal> {
    let (kind, seconds) = match timing.reading {
        Reading::Taken(seconds) => (raw::HIMM_SECONDS_TAKEN, seconds),
        Reading::Waited(seconds) => (raw::HIMM_SECONDS_WAITED, seconds),
    };
    let (dead_time, room, mut length) = (timing.dead_time, out.len(), 0);
    let number = unsafe { raw::himm_import(node, command, target, kind, seconds, dead_time, out.as_mut_ptr(), room, &mut length) };
    Refusal::check(number).map(|()| &out[..length as usize])
}

/// Opens up to [`WALKERS`] walkers, each at its state: at most as many as the limit may be inside the node, at it or below it. Nothing is
/// written.
pub fn walkers(book: &[u32], node: u32, limit: u32, walkers: &[u32]) -> Result<(), Refusal> {
    Layout::ByNode.walkers(book, node, limit, walkers)
}

/// One command for one of these walkers: it goes where [`step`] leads from its state, unless it would come inside the node while as many as
/// the limit are there. Its state is stored among the walkers' and given, with the cost and the node whose transition was used.
///
/// ```
/// use himm::{Moved, Refusal};
/// let (mut book, mut sheet) = (vec![0; himm::BOOK_WORDS], vec![0; himm::SHEET_WORDS]);
/// himm::open_ladder(&mut book, &mut sheet)?;
/// // Node 0 of the ladder holds a machine, which is entered at its state 4. One walker may be inside.
/// let (node, limit, mut walkers) = (0, 1, [1, 1]);
/// himm::walkers(&book, node, limit, &walkers)?;
/// assert_eq!(himm::walk(&book, node, limit, &mut walkers, 0, 0), Ok(Moved { state: 4, cost: 1, node: 1 }));
/// assert_eq!(himm::walk(&book, node, limit, &mut walkers, 1, 0), Err(Refusal::NodeFull));
/// assert_eq!(walkers, [4, 1]);
/// # Ok::<(), himm::Refusal>(())
/// ```
pub fn walk(book: &[u32], node: u32, limit: u32, walkers: &mut [u32], walker: u32, command: u32) -> Result<Moved, Refusal> {
    Layout::ByNode.walk(book, node, limit, walkers, walker, command)
}
