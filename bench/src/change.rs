//! Two libraries on the same books: before and after a change, row by row.

use crate::library::{Library, Moved};
use crate::rows::Agreement;
use crate::side::{half_full, hard, kinds, logged, Side, ROUNDS};
use crate::timing::{rounds, Times};
use himm_model::book::hold_at;
use himm_model::{ABSENT, WALKERS};

/// A row: its name, the call that it needs, and its work of one round, which gives an answer that both libraries must agree on.
type Row = (&'static str, &'static str, fn(&Side, usize, &mut Times) -> Vec<u32>);

/// The rows that need no book.
const BARE: [Row; 5] = [
    ("open the ladder", "himm_open_ladder", |side, _, t| front(side.open(t))),
    ("open the ladder from a table", "himm_open_table", |side, _, t| front(side.open_table(t))),
    ("rows of the ladder", "himm_ladder", |side, _, t| side.ladder(t)),
    ("import 1,000 timings", "himm_import", |side, i, t| words(side.import(&logged(i), t))),
    ("import 1,000 hard timings", "himm_import", |side, i, t| words(side.import(&hard(i), t))),
];

/// The rows of each kind of book. Steps are compared by state and cost, since a library before version 2 does not name the node. No node is
/// held and no machine costs anything to leave, and books are compared up to the holds: a library before version 3 has no words for them,
/// and one before version 4 none for costs of leaving.
const ROWS: [Row; 19] = [
    ("plan", "himm_plan", |side, i, t| side.plan(i, t).into_iter().collect()),
    ("checks of book and sheet", "himm_exit", |side, i, t| none(side.at(i).check_both(t))),
    ("checks of the book", "himm_step", |side, i, t| none(side.at(i).check_book(t))),
    ("edit, refresh and plan", "himm_plan", |side, i, t| side.edit_refresh_and_plan(i, t).into_iter().collect()),
    ("step", "himm_step", |side, i, t| side.step(i, t).map_or(vec![], |to| vec![to.state, to.cost])),
    ("exit", "himm_exit", |side, i, t| side.exit(i, t).into_iter().collect()),
    ("choose, short lists", "himm_choose", |side, i, t| side.choose(i, t).map_or(vec![], |(which, used)| vec![which, used])),
    ("choose, long lists", "himm_choose", |side, i, t| side.choose_long(i, t).map_or(vec![], |(which, used)| vec![which, used])),
    ("load of the whole book", "himm_load", |side, i, t| front(side.load(i, t))),
    ("load of an empty stream", "himm_load", |side, i, t| front(side.load_nothing(i, t))),
    ("one edit and refresh", "himm_load", |side, i, t| front(side.edit_and_refresh(i, t))),
    ("one edit and refresh, all stale", "himm_load", |side, i, t| front(side.edit_and_refresh_all(i, t))),
    ("write", "himm_write", |side, i, t| vec![side.write(i, t) as u32]),
    ("open 8 walkers", "himm_walkers", |side, i, t| vec![side.open_walkers(i, t)]),
    ("command to one of 8 walkers", "himm_walk", |side, i, t| walked(side.walk(i, t))),
    ("turn by command", "himm_by_command", |side, i, t| side.turn_by_command(i, t)),
    ("turn by node", "himm_by_node", |side, i, t| side.turn_by_node(i, t)),
    ("step by command", "himm_step_by_command", |side, i, t| side.step_by_command(i, t).map_or(vec![], |to| vec![to.state, to.cost])),
    ("plan by command", "himm_plan_by_command", |side, i, t| side.plan_by_command(i, t).into_iter().collect()),
];

/// The rows of two half-full books.
const MERGING: [Row; 2] = [
    ("merge two half-full random books", "himm_merge", |side, i, t| front(side.merge(i, t))),
    ("write and load both", "himm_load", |side, i, t| side.write_and_load_both(i, t).map(front).concat()),
];

/// The words of a book up to its holds.
fn front(mut book: Vec<u32>) -> Vec<u32> {
    book.truncate(hold_at(0));
    book
}

/// The answer of work that gives bytes.
fn words(bytes: Vec<u8>) -> Vec<u32> {
    bytes.into_iter().map(u32::from).collect()
}

/// The answer of a walker command: the refusal, or cost and node, and the walkers' states.
fn walked((answer, states): (Result<Moved, u32>, [u32; WALKERS])) -> Vec<u32> {
    let given = answer.map_or_else(|refusal| vec![refusal], |to| vec![to.cost, to.node.unwrap_or(ABSENT)]);
    [&given[..], &states].concat()
}

/// The answer of work that gives none.
fn none(_: ()) -> Vec<u32> {
    vec![]
}

/// The table of both libraries: books in turn, then one book of each kind again and again.
pub fn table(before: &'static Library, after: &'static Library, agreement: &mut Agreement) {
    for (name, library) in [("Before", before), ("After", after)] {
        println!("{name}: books of {} words, sheets of {}.", library.book_words, library.sheet_words);
    }
    let both: Vec<_> = kinds(before).into_iter().zip(kinds(after)).map(|((name, a), (_, b))| (name, a, b)).collect();
    println!();
    println!("{:<38} {:>9} {:>9} {:>8}   10 % .. 90 %", "", "before", "after", "ratio");
    let (_, one, other) = &both[0];
    BARE.iter().for_each(|each| row(each, one, other, agreement));
    for (name, before, after) in &both {
        println!("{name}: {} in turn", before.books.len());
        ROWS.iter().for_each(|each| row(each, before, after, agreement));
    }
    let (one, other) = (half_full(before), half_full(after));
    println!("half-full random books: {} in turn", one.books.len());
    MERGING.iter().for_each(|each| row(each, &one, &other, agreement));
    for (name, before, after) in both.iter().filter(|(_, before, _)| before.books.len() > 1) {
        println!("{name}: one again and again");
        let (before, after) = (before.first(), after.first());
        ROWS.iter().for_each(|each| row(each, &before, &after, agreement));
    }
}

/// One row; a library that lacks its call has no number in it.
fn row((name, call, work): &Row, before: &Side, after: &Side, agreement: &mut Agreement) {
    let (old, new) = (before.library().has(call), after.library().has(call));
    let on = |side: &Side, has: bool, i: usize, t: &mut Times| if has { work(side, i, t) } else { vec![] };
    let agree = |a: Vec<u32>, b: Vec<u32>| {
        if old && new {
            agreement.of(a, b)
        }
    };
    rounds(ROUNDS, |i, t| on(after, new, i, t), |i, t| on(before, old, i, t), agree).print_change(name);
}
