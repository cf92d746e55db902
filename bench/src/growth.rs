//! How costs grow: by states, by levels, by edits, by the length of a stream.

use crate::holding::{then_refresh, Holding};
use crate::library::Library;
use crate::rows::Agreement;
use crate::timing::{medians, print_head, print_row, timed, Times, Work};
use himm_model::flat::Flat;
use himm_model::random::{Growth, Shape};
use himm_model::stream::Command;
use himm_model::{LEVELS, NODES};

const ROUNDS: usize = 100;

const HEADS: [&str; 7] = ["plan", "checks", "all stale", "one edit", "load", "flatten", "search"];

/// One row: a plan, its checks, one edit and a refresh with every machine stale before and with none, a load of the whole book; then the
/// flat side.
fn row(name: &str, holding: &Holding, agreement: &mut Agreement) {
    let (pairs, edits, stale, stream) = (holding.pairs(ROUNDS), edits(holding, 1), holding.stale(), holding.stream());
    let (fresh, flat) = (Holding::fresh(holding.library), Flat::of(&holding.book));
    let search = |i: usize| flat.search(pairs[i].0 as usize, pairs[i].1 as usize).map(|way| way.cost);
    let (mut ours, mut theirs) = (vec![], vec![]);
    let times = medians(
        ROUNDS,
        vec![
            Box::new(|i, t: &mut Times| ours.push(holding.plan(pairs[i], t))),
            Box::new(|_, t: &mut Times| holding.check_both(t)),
            Box::new(|i, t: &mut Times| drop(stale.load(&edits[i], t))),
            Box::new(|i, t: &mut Times| drop(holding.load(&edits[i], t))),
            Box::new(|_, t: &mut Times| drop(fresh.load(&stream, t))),
            Box::new(|_, t: &mut Times| drop(timed(t, || Flat::of(&holding.book)))),
            Box::new(|i, t: &mut Times| theirs.push(timed(t, || search(i)))),
        ],
    );
    print_row(name, &times);
    agreement.of_all(ours, theirs);
}

/// For each round a stream of so many edits and a refresh.
fn edits(holding: &Holding, count: usize) -> Vec<Vec<u8>> {
    (0..ROUNDS as u64).map(|seed| then_refresh(&holding.edits(count, seed).concat())).collect()
}

/// Twice the nodes in twice the machines, row by row.
pub fn by_states(library: &'static Library, agreement: &mut Agreement) {
    print_head("by states", &HEADS);
    for nodes in [16, 32, 64, 128, NODES] {
        let shape = Shape { machines: nodes / 4, nodes, filled: 60, ..Shape::full() };
        let holding = Holding::random(library, 40, &shape);
        row(&format!("{} states, {} machines", holding.tree.states().len(), nodes / 4), &holding, agreement);
    }
}

/// The same nodes in chains of more and more levels.
pub fn by_levels(library: &'static Library, agreement: &mut Agreement) {
    print_head("by levels", &HEADS);
    for levels in 1..=LEVELS {
        let shape = Shape { growth: Growth::EvenChain, machines: levels, nodes: 128, filled: 30, ..Shape::full() };
        let holding = Holding::random(library, 41, &shape);
        let lowest = holding.tree.machines_in_use().iter().filter_map(|&m| holding.tree.level(m)).max().unwrap_or(0);
        row(&format!("{lowest} levels, {} states", holding.tree.states().len()), &holding, agreement);
    }
}

/// So many edits and then a refresh, against the same with every machine stale before.
pub fn by_edits(name: &str, holding: &Holding) {
    let stale = holding.stale();
    for count in [0, 1, 2, 4, 8, 16, 32, 64, 128] {
        let edits = edits(holding, count);
        let times = medians(
            ROUNDS,
            vec![
                Box::new(|i, t: &mut Times| drop(holding.load(&edits[i], t))),
                Box::new(|i, t: &mut Times| drop(stale.load(&edits[i], t))),
            ],
        );
        print_row(&format!("{name}, {count} edits"), &[times[0], times[1], times[0] / times[1]]);
    }
}

/// The longest stream against its fronts, each cut after a whole command.
pub fn by_bytes(library: &'static Library) {
    print_head("by bytes", &["load", "ns a byte"]);
    let (full, fresh) = (Holding::random(library, 42, &Shape::full()).stream(), Holding::fresh(library));
    let streams = [8, 4, 2, 1].map(|part| front(&full, full.len() / part));
    let loads = streams.map(|stream| Box::new(|_, t: &mut Times| drop(fresh.load(stream, t))) as Work);
    for (stream, time) in streams.iter().zip(medians(ROUNDS, loads.into())) {
        print_row(&format!("{} bytes", stream.len()), &[time, 1000.0 * time / stream.len() as f64]);
    }
}

/// The commands of a stream that lie whole within so many bytes.
fn front(stream: &[u8], most: usize) -> &[u8] {
    let mut taken = 0;
    while let Some((_, length)) = stream.get(taken..).filter(|rest| !rest.is_empty()).and_then(|rest| Command::read(rest).ok()) {
        if taken + length > most {
            break;
        }
        taken += length;
    }
    &stream[..taken]
}
