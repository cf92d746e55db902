//! Wrong lengths, torn books and false sheets: every call refuses exactly what the model refuses, and writes nothing.

mod common;

use common::damage::{copy_a_field, put_over, words};
use common::walkers::Walkers;
use common::{Holding, View};
use himm_model::book::{hold_at, leave_at, machine_at, node_at};
use himm_model::random::{Costs, Random, Shape};
use himm_model::sheet::{machine_row, node_row};
use himm_model::{BOOK_WORDS, COMMANDS, MACHINES, NODES, SHEET_WORDS};

/// A table of one machine, and one whose machine has no start.
const GOOD: [u32; 3] = [0, 65535, 1];
const TORN: [u32; 3] = [0, 65535, 0];

/// One of each call, with arguments that would otherwise be good. An opening does not look at what it writes over.
fn compare(holding: &Holding, view: &View, random: &mut Random) {
    let machine = random.below(MACHINES) as u32;
    let (from, to) = (random.below(NODES) as u32, random.below(NODES) as u32);
    let command = random.below(COMMANDS) as u32;
    holding.compare_exit(view, machine, command);
    holding.compare_step(view, from, command);
    holding.compare_plan(view, from, to, himm::PLAN_BYTES);
    holding.compare_choice(view, from, to, &[0, 1, 2], &[1]);
    holding.clone().load(&[himm::REFRESH]);
    holding.clone().open_table(if command % 2 == 0 { &GOOD } else { &TORN });
    Walkers::at(to, 1, &[from]).both(&holding.book, &view.book, 0, command);
}

fn random_holding(random: &mut Random) -> Holding {
    let shape = Shape { costs: random.pick(&[Costs::Zero, Costs::Few, Costs::Any]), ..Shape::random(random) };
    Holding::random(random, &shape)
}

#[test]
fn wrong_lengths() {
    let mut random = Random::new(1);
    let good = random_holding(&mut random);
    for book in [0, 1, hold_at(0), leave_at(0), BOOK_WORDS - 1, BOOK_WORDS, BOOK_WORDS + 1, 10_000] {
        for sheet in [0, 1, SHEET_WORDS - 1, SHEET_WORDS, SHEET_WORDS + 1, 10_000] {
            let mut holding = good.clone();
            holding.book.resize(book, 65535);
            holding.sheet.resize(sheet, 65535);
            compare(&holding, &holding.view(), &mut random);
            holding.compare_write(&holding.view());
            wrong_opening(holding);
        }
    }
}

fn wrong_opening(mut holding: Holding) {
    if (holding.book.len(), holding.sheet.len()) != (BOOK_WORDS, SHEET_WORDS) {
        let before = holding.clone();
        assert_eq!(himm::open_fresh(&mut holding.book, &mut holding.sheet), Err(himm::Refusal::WrongLength));
        assert_eq!(himm::open_ladder(&mut holding.book, &mut holding.sheet), Err(himm::Refusal::WrongLength));
        assert_eq!([&GOOD[..], &TORN, &GOOD[1..]].map(|rows| holding.open_table(rows)), [1; 3]);
        assert!(holding == before, "a refused opening wrote");
    }
}

/// Every word of some small books, changed in several ways.
#[test]
fn torn_books_word_by_word() {
    let mut random = Random::new(31_000);
    let mut torn = 0;
    for _ in 0..2 {
        let shape = Shape { machines: 5, nodes: 14, commands: 3, ..Shape::random(&mut random) };
        let good = Holding::random(&mut random, &shape);
        for at in 0..BOOK_WORDS {
            for word in words(&mut random, good.book[at]) {
                let mut holding = good.clone();
                holding.book[at] = word;
                let view = holding.view();
                torn += view.book.is_err() as usize;
                compare(&holding, &view, &mut random);
            }
        }
    }
    assert!(torn > 50_000);
}

/// Several words of random books copied from one place to another, which keeps each of them in range.
#[test]
fn torn_books_by_copying() {
    for seed in 0..2000 {
        let mut random = Random::new(32_000 + seed);
        let mut holding = random_holding(&mut random);
        for _ in 0..1 + random.below(3) {
            copy_a_field(&mut random, &mut holding.book);
        }
        compare(&holding, &holding.view(), &mut random);
    }
}

/// Machines that hold each other and never come to the root, and chains that are too deep.
#[test]
fn rings_and_deep_chains() {
    let mut random = Random::new(33_000);
    let mut chain = Holding::fresh();
    for k in 0..7 {
        chain.load(&[0x12, 0, k, k + 1, 0, k + 1]);
    }
    chain.load(&[himm::REFRESH]);
    for length in 1..20 {
        let mut holding = chain.clone();
        for k in 0..length {
            put_over(&mut holding.book, 20 + k, 20 + (k + 1) % length);
        }
        assert_eq!(holding.view().book.err(), Some(2));
        compare(&holding, &holding.view(), &mut random);
    }
    let mut deep = chain;
    deep.book[node_at(7) + 1] = 8;
    deep.book[machine_at(8)] = 7;
    deep.book[machine_at(8) + 1] = 8;
    deep.book[node_at(8)] = 8;
    assert_eq!(deep.view().book.err(), Some(2));
    compare(&deep, &deep.view(), &mut random);
}

/// Every word of some sheets, changed in several ways.
#[test]
fn false_sheets_word_by_word() {
    let (mut truths, mut lies) = (0, 0);
    for seed in 0..4 {
        let mut random = Random::new(34_000 + seed);
        let shape = Shape { machines: 5, nodes: 14, commands: 3, costs: Costs::Few, ..Shape::random(&mut random) };
        let mut good = Holding::random(&mut random, &shape);
        if seed % 3 == 2 {
            good.load(&[0x16, 0, random.pick(&good.tree().states()) as u8]);
        }
        for at in 0..SHEET_WORDS {
            let near = [random.pick(&good.tree().states()) as u32, random.below(3) as u32];
            for word in words(&mut random, good.sheet[at]).into_iter().chain(near.into_iter().filter(|&w| w != good.sheet[at])) {
                let mut holding = good.clone();
                holding.sheet[at] = word;
                let view = holding.view();
                *if view.whole.is_ok() { &mut truths } else { &mut lies } += 1;
                compare(&holding, &view, &mut random);
            }
        }
    }
    assert!(lies > 100_000 && truths > 0, "{lies} lies, {truths} truths");
}

/// Sheets whose lies are near the truth: names exchanged, costs that agree with each other but are not the least, marks set or cleared.
#[test]
fn false_sheets_near_the_truth() {
    let (mut truths, mut lies) = (0, 0);
    for seed in 0..3000 {
        let mut random = Random::new(35_000 + seed);
        let mut holding = random_holding(&mut random);
        for _ in 0..1 + random.below(3) {
            change_a_row(&mut random, &mut holding);
        }
        let view = holding.view();
        *if view.whole.is_ok() { &mut truths } else { &mut lies } += 1;
        compare(&holding, &view, &mut random);
    }
    assert!(lies > 500 && truths > 100, "{lies} lies, {truths} truths");
}

fn change_a_row(random: &mut Random, holding: &mut Holding) {
    let tree = holding.tree();
    let m = random.pick(&tree.machines_in_use());
    let (u, v) = (random.pick(&tree.nodes_of(m)), random.pick(&tree.nodes_of(m)));
    let (row, x) = (machine_row(m), random.below(COMMANDS));
    let sheet = &mut holding.sheet;
    match random.below(9) {
        0 => sheet[node_row(u) + 1] = v as u32,
        1 => sheet[node_row(u) + 2] = x as u32,
        2 => sheet.copy_within(node_row(v)..node_row(v) + 3, node_row(u)),
        3 => sheet[row + 17 + x] = u as u32,
        4 => sheet[row + 1 + x] = sheet[row + 1 + random.below(COMMANDS)],
        5 => raise(random, sheet, &tree.nodes_of(m), row),
        6 => stale(sheet, &tree.nodes_of(m), row),
        7 => tree.upward(m).iter().for_each(|&m| stale(sheet, &tree.nodes_of(m), machine_row(m))),
        _ => sheet[row] ^= 1,
    }
}

/// All costs of a machine but the start's, and all its exit costs, dearer by the same.
fn raise(random: &mut Random, sheet: &mut [u32], nodes: &[usize], row: usize) {
    let more = 1 + random.below(3) as u32;
    for &n in nodes {
        if ![0, u32::MAX].contains(&sheet[node_row(n)]) {
            sheet[node_row(n)] += more;
        }
    }
    for word in &mut sheet[row + 1..row + 17] {
        if ![0, u32::MAX].contains(word) {
            *word += more;
        }
    }
}

/// Marks a machine stale and blanks its rows.
fn stale(sheet: &mut [u32], nodes: &[usize], row: usize) {
    sheet[row] = 1;
    sheet[row + 1..row + 17].fill(u32::MAX);
    sheet[row + 17..row + 33].fill(65535);
    for &n in nodes {
        sheet[node_row(n)..node_row(n) + 3].copy_from_slice(&[u32::MAX, 65535, 65535]);
    }
}

/// Nodes that name each other at cost 0 and never come to the start.
#[test]
fn names_in_a_ring() {
    let arrow = |n: u8, x: u8, t: u8| [0x14, 0, n, x, 0, t, 0, 0];
    let stream = [[0x11, 0, 0, 1], [0x11, 0, 0, 2]].concat();
    let arrows = [arrow(0, 0, 1), arrow(1, 0, 2), arrow(2, 0, 1), arrow(2, 1, 2)].concat();
    let good = Holding::loaded(&[stream, arrows].concat());
    let mut random = Random::new(36_000);
    for (node, before, command) in [(1, 2, 0), (2, 2, 1), (1, 1, 0)] {
        let mut holding = good.clone();
        holding.sheet[node_row(node)..node_row(node) + 3].copy_from_slice(&[0, before, command]);
        assert_eq!(holding.view().whole.err(), Some(3));
        compare(&holding, &holding.view(), &mut random);
    }
}

/// Books and sheets of random words.
#[test]
fn noise() {
    let mut random = Random::new(37_000);
    for limit in [1, 2, 64, 256, 65536, usize::MAX] {
        for _ in 0..20 {
            let holding = Holding {
                book: (0..BOOK_WORDS).map(|_| random.below(limit) as u32).collect(),
                sheet: (0..SHEET_WORDS).map(|_| random.below(limit) as u32).collect(),
            };
            compare(&holding, &holding.view(), &mut random);
        }
    }
}
