//! The public calls: refusals in the order of documents 01 and 02, then what the call gives. `Err` holds the refusal's number.

use crate::flat::Flat;
use crate::import::{self, Import, Reading};
use crate::sheet::{self, is_stale, Exits};
use crate::stream::{Command, Row, Station};
use crate::tree::{Moved, Tree};
use crate::{book, choose, merge, table, walk, write};
use crate::{BOOK_WORDS, COMMANDS, LARGEST_DEPTH, MACHINES, NODES, ROW_WORDS, SHEET_WORDS, TABLE_WORDS, WALKERS};

/// Refuses where the test does not hold.
fn ask(number: u32, holds: bool) -> Result<(), u32> {
    if holds {
        Ok(())
    } else {
        Err(number)
    }
}

/// The tree of a book: refuses 1, 2.
pub fn read_book(words: &[u32]) -> Result<Tree, u32> {
    ask(1, words.len() == BOOK_WORDS)?;
    book::decode(words).ok_or(2)
}

/// The tree of a book with its sheet: refuses 1, 2, 3.
pub fn read_holding(book: &[u32], sheet: &[u32]) -> Result<Tree, u32> {
    ask(1, book.len() == BOOK_WORDS && sheet.len() == SHEET_WORDS)?;
    let tree = book::decode(book).ok_or(2u32)?;
    ask(3, sheet::is_true(&tree, sheet))?;
    Ok(tree)
}

/// The words of a tree's book, and of its sheet with every machine stale.
fn opened(tree: &Tree) -> (Vec<u32>, Vec<u32>) {
    (book::encode(tree), sheet::stale(tree))
}

/// Open from a table into lists of these lengths: refuses 1, 2; gives the words of the book and of its sheet.
pub fn open_table(rows: &[u32], book_len: usize, sheet_len: usize) -> Result<(Vec<u32>, Vec<u32>), u32> {
    let whole_rows = rows.len() % ROW_WORDS == 0 && rows.len() <= TABLE_WORDS;
    ask(1, whole_rows && book_len == BOOK_WORDS && sheet_len == SHEET_WORDS)?;
    table::tree(rows).map(|tree| opened(&tree)).ok_or(2)
}

/// The ladder's rows for a depth, into an output of so many words: refuses 24, 15.
pub fn ladder(depth: u32, room: usize) -> Result<Vec<u32>, u32> {
    ask(24, (1..=LARGEST_DEPTH).contains(&depth))?;
    let rows = table::ladder(depth);
    ask(15, room >= rows.len())?;
    Ok(rows)
}

/// A turn of a list of words into a list of so many: refuses 1.
pub fn turn(turned: fn(&[u32]) -> Vec<u32>, words: &[u32], out_len: usize) -> Result<Vec<u32>, u32> {
    ask(1, words.len() == BOOK_WORDS && out_len == BOOK_WORDS)?;
    Ok(turned(words))
}

/// A true holding as a station whose rows are kept or stale.
pub fn station(tree: Tree, sheet: &[u32]) -> Station {
    let rows = (0..MACHINES).map(|m| if is_stale(sheet, m) { Row::Stale } else { Row::Kept }).collect();
    Station { tree, rows }
}

/// Exit of a true holding: refuses 6, 7, 13, 16.
pub fn exit(tree: &Tree, sheet: &[u32], exits: &[Exits], machine: u32, command: u32) -> Result<u32, u32> {
    let (m, x) = (machine as usize, command as usize);
    ask(6, m < MACHINES && x < COMMANDS)?;
    ask(7, tree.machines[m].is_some())?;
    ask(13, !is_stale(sheet, m))?;
    exits[m][x].ok_or(16)
}

/// Two states: refuses 6, 7, 14.
fn two_states(tree: &Tree, from: u32, to: u32) -> Result<(usize, usize), u32> {
    let both = [from as usize, to as usize];
    ask(6, both.iter().all(|&n| n < NODES))?;
    ask(7, both.iter().all(|&n| tree.nodes[n].is_some()))?;
    ask(14, both.iter().all(|&n| tree.is_state(n)))?;
    Ok((both[0], both[1]))
}

/// Step: refuses 6, 7, 14, 17.
pub fn step(tree: &Tree, state: u32, command: u32) -> Result<Moved, u32> {
    ask(6, (state as usize) < NODES && (command as usize) < COMMANDS)?;
    let (s, _) = two_states(tree, state, state)?;
    tree.step(s, command as usize).ok_or(17)
}

/// The cost of a plan over a true holding: refuses 13, 6, 7, 14, 15, 16.
pub fn plan(tree: &Tree, sheet: &[u32], flat: &Flat, from: u32, to: u32, room: usize) -> Result<u32, u32> {
    ask(13, (0..MACHINES).all(|m| !is_stale(sheet, m)))?;
    let (a, b) = two_states(tree, from, to)?;
    ask(15, room + 1 >= tree.states().len())?;
    flat.costs_from(a)[b].ok_or(16)
}

/// Write: refuses 15.
pub fn write(tree: &Tree, room: usize) -> Result<Vec<u8>, u32> {
    let stream = write::stream(tree);
    ask(15, room >= stream.len())?;
    Ok(stream)
}

/// Choose: refuses 6, 7, 14, 18.
pub fn choose(tree: &Tree, from: u32, to: u32, first: &[u8], second: &[u8]) -> Result<(u32, usize), u32> {
    let (a, b) = two_states(tree, from, to)?;
    choose::choose(tree, a, b, first, second).ok_or(18)
}

/// Merge of two books into lists of these lengths: refuses 1, 2, 2, 12, 19; gives the words of the third book and of its sheet.
pub fn merge(first: &[u32], second: &[u32], book_len: usize, sheet_len: usize) -> Result<(Vec<u32>, Vec<u32>), u32> {
    ask(1, [first.len(), second.len(), book_len] == [BOOK_WORDS; 3] && sheet_len == SHEET_WORDS)?;
    let one = book::decode(first).ok_or(2u32)?;
    let other = book::decode(second).ok_or(2u32)?;
    ask(12, !one.is_deep() && !other.is_deep())?;
    merge::merge(&one, &other).map(|merged| opened(&merged)).ok_or(19)
}

/// Import into an output of so many bytes: refuses 6, 20, 15.
pub fn import(lent: &Import, room: usize) -> Result<Vec<u8>, u32> {
    let (node, command, target) = (lent.node as usize, lent.command as usize, lent.target as usize);
    ask(6, node < NODES && command < COMMANDS && target < NODES)?;
    let edit = match lent.reading().ok_or(6u32)? {
        Reading::Taken(seconds) => Command::Arrow { node, command, target, cost: import::cost(seconds, lent.dead_time).ok_or(20u32)? },
        Reading::Waited(_) => Command::Clear { node, command },
    };
    let bytes = edit.bytes();
    ask(15, room >= bytes.len())?;
    Ok(bytes)
}

/// The opening of walkers at some states, of which at most so many may be inside a node: refuses 23 (limit or number of walkers), 6, 7, 14,
/// 23 (too many inside).
pub fn walkers(tree: &Tree, node: u32, limit: u32, walkers: &[u32]) -> Result<(), u32> {
    ask(23, limit as usize <= WALKERS && walkers.len() <= WALKERS)?;
    let named = || walkers.iter().chain([&node]).map(|&n| n as usize);
    ask(6, named().all(|n| n < NODES))?;
    ask(7, named().all(|n| tree.nodes[n].is_some()))?;
    ask(14, walkers.iter().all(|&n| tree.is_state(n as usize)))?;
    ask(23, walk::inside(tree, node as usize, walkers) <= limit as usize)
}

/// A walker command, which changes that walker's state alone: refuses what the opening refuses, 6 (no such walker), Step's 6 and 17, 22.
pub fn walk(tree: &Tree, node: u32, limit: u32, states: &mut [u32], walker: u32, command: u32) -> Result<Moved, u32> {
    walkers(tree, node, limit, states)?;
    let record = *states.get(walker as usize).ok_or(6u32)?;
    let moved = step(tree, record, command)?;
    let full = walk::inside(tree, node as usize, states) >= limit as usize;
    ask(22, !(full && walk::comes_inside(tree, node as usize, record as usize, moved.state)))?;
    states[walker as usize] = moved.state as u32;
    Ok(moved)
}
