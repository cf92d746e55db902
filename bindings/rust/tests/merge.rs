//! Merge: document 02's numbers, each refusal, random pairs of books and the costs in them, damaged books.

mod common;

use common::damage::{copy_a_field, put_over, words};
use common::{counts, hex, Holding, MAST};
use himm::{Moved, Refusal};
use himm_model::book::{decode, encode, machine_at, node_at};
use himm_model::flat::Flat;
use himm_model::merge::Numbers;
use himm_model::random::{self, Growth, Random, Shape};
use himm_model::stream::{Command, Station};
use himm_model::tree::Tree;
use himm_model::{sheet, BOOK_WORDS, COMMANDS, LEVELS, MACHINES, NODES, SHEET_WORDS};

/// The mast book merged with itself, as a stream: the second's machines 0, 1 are 2, 3, its nodes 0, 1, 2, 10, 11 are 3 to 7; the new root
/// is machine 4, its start is node 8, its other node 9.
const TWO_MASTS: &str = "10 04 0008 11 04 0009 12 0008 00 0000 12 0009 02 0003 \
                         11 00 0001 11 00 0002 11 02 0004 11 02 0005 12 0001 01 000A 12 0004 03 0006 11 03 0007 11 01 000B \
                         14 0000 00 0001 0005 14 0000 02 0002 0014 14 0001 01 0002 0003 14 0002 00 0000 0007 \
                         14 0003 00 0004 0005 14 0003 02 0005 0014 14 0004 01 0005 0003 14 0005 00 0003 0007 \
                         14 0006 01 0006 0001 14 0006 02 0007 0004 14 000A 01 000A 0001 14 000A 02 000B 0004";

/// A merge over words that are no holding's: the refusal or 0, and the words left.
fn merge(first: &[u32], second: &[u32]) -> (u32, Holding) {
    let mut third = Holding::untouched();
    (third.merge(first, second), third)
}

/// The refusal of a merge, or 0.
fn refusal(first: &[u32], second: &[u32]) -> u32 {
    merge(first, second).0
}

/// A merge that is done, and then a refresh.
fn merged(first: &[u32], second: &[u32]) -> Holding {
    let (number, mut third) = merge(first, second);
    assert_eq!(number, 0);
    assert_eq!(third.load(&[himm::REFRESH]).number, 0);
    third
}

/// The book that some commands make of a fresh one, by the model.
fn book_of(commands: &[Command]) -> Vec<u32> {
    let mut station = Station::stale(Tree::single(0, 0));
    commands.iter().for_each(|command| station.apply(command));
    encode(&station.tree)
}

fn random_book(random: &mut Random, shape: &Shape) -> Vec<u32> {
    book_of(&random::book(random, shape))
}

fn mast() -> Vec<u32> {
    Holding::loaded(&hex(MAST)).book
}

/// So many levels, each with one machine of one node, but for the root, which has a second node 20: command 0 goes from there down to
/// the lowest node, command 1 back.
fn chain(levels: usize) -> Vec<u32> {
    let refine = |k: usize| Command::Refine { node: k, machine: k + 1, start: k + 1 };
    let mut all: Vec<Command> = (0..levels - 1).map(refine).collect();
    all.push(Command::Add { machine: 0, node: 20 });
    all.push(Command::Arrow { node: 20, command: 0, target: 0, cost: 1 });
    all.push(Command::Arrow { node: 0, command: 1, target: 20, cost: 2 });
    book_of(&all)
}

/// So many machines and nodes: a root, and below some of its nodes machines of one node each.
fn of_size(machines: usize, nodes: usize) -> Vec<u32> {
    let own = nodes - (machines - 1);
    let mut all: Vec<Command> = (1..own).map(|node| Command::Add { machine: 0, node }).collect();
    all.extend((1..machines).map(|m| Command::Refine { node: m, machine: m, start: own - 1 + m }));
    book_of(&all)
}

#[test]
fn the_mast_book_with_itself() {
    let mast = mast();
    let (number, third) = merge(&mast, &mast);
    assert_eq!(number, 0);
    assert_eq!(third.book[..11], [4, 8, 0, 1, 10, 9, 3, 4, 6, 65535, 8]);
    assert!(third.book[11..129].iter().all(|&word| word == 65535));
    assert!(third.book == Holding::loaded(&hex(TWO_MASTS)).book);
    let mut out = vec![0; himm::STREAM_BYTES];
    assert_eq!(himm::write(&third.book, &mut out), Ok(&hex(TWO_MASTS)[..]));
    let mut blank = sheet::blank();
    [0, 33, 66, 99, 132].into_iter().for_each(|mark| blank[mark] = 1);
    assert!(third.sheet == blank);
}

#[test]
fn plans_of_two_masts() {
    let third = merged(&mast(), &mast());
    let plan = |from, to| {
        let mut buffer = [0; himm::PLAN_BYTES];
        himm::plan(&third.book, &third.sheet, from, to, &mut buffer).map(|plan| (plan.cost, plan.commands.to_vec()))
    };
    for (from, to, twin_from, twin_to, cost, commands) in [(0, 2, 3, 5, 12, [0, 2, 1]), (11, 10, 7, 6, 15, [1, 0, 0])] {
        assert_eq!(plan(from, to), Ok((cost, commands.to_vec())));
        assert_eq!(plan(twin_from, twin_to), Ok((cost, commands.to_vec())));
        assert_eq!((plan(from, twin_to), plan(twin_from, to)), (Err(Refusal::NoWay), Err(Refusal::NoWay)));
    }
    let exits = |m| [0, 1, 2].map(|x| himm::exit(&third.book, &third.sheet, m, x));
    assert_eq!((exits(1), exits(3)), ([Ok(0), Ok(4), Ok(4)], [Ok(0), Ok(4), Ok(4)]));
    assert_eq!((exits(0), exits(2), exits(4)), ([Ok(5), Ok(0), Ok(9)], [Ok(5), Ok(0), Ok(9)], [Ok(5), Ok(0), Ok(9)]));
    assert_eq!(himm::step(&third.book, 7, 1), Ok(Moved { state: 5, cost: 3, node: 4 }));
    assert_eq!((himm::step(&third.book, 7, 0), himm::step(&third.book, 8, 0)), (Err(Refusal::Stops), Err(Refusal::NotPlain)));
}

/// All of the second's numbers move, though none of them is in use in the first, and gaps are filled in rising order.
#[test]
fn gaps_in_the_numbers() {
    let first = Holding::loaded(&hex("10 01 0002 11 01 0005 12 0005 03 0000 14 0002 07 0005 0001")).book;
    let second = Holding::loaded(&hex("10 3C 00FA 11 3C 0007 12 00FA 09 00FB 14 00FA 0F 0007 FFFF 14 0007 00 00FA 0000")).book;
    let third = merged(&first, &second);
    let expected = "10 04 0006 11 04 0007 12 0006 01 0002 12 0007 02 0003 11 02 0001 11 01 0005 12 0003 00 0004 12 0005 03 0000 \
                    14 0001 00 0003 0000 14 0002 07 0005 0001 14 0003 0F 0001 FFFF";
    let mut out = vec![0; himm::STREAM_BYTES];
    assert_eq!(himm::write(&third.book, &mut out), Ok(&hex(expected)[..]));
}

/// The third book's and sheet's old words are not judged and leave no trace.
#[test]
fn what_stood_there() {
    let (first, second) = (mast(), chain(7));
    let (_, expected) = merge(&first, &second);
    let zeros = Holding { book: vec![0; BOOK_WORDS], sheet: vec![0; SHEET_WORDS] };
    for mut third in [zeros, Holding::ladder(), Holding::loaded(&hex(MAST)), Holding { book: second.clone(), ..Holding::fresh() }] {
        assert_eq!(third.merge(&first, &second), 0);
        assert!(third == expected);
    }
}

/// Each of the four lists alone of another length: 1, before all other refusals.
#[test]
fn wrong_lengths() {
    let (good, torn, full) = (mast(), vec![7; BOOK_WORDS], of_size(1, NODES));
    for (first, second) in [(&good, &good), (&torn, &good), (&good, &torn), (&full, &full), (&chain(LEVELS), &full)] {
        for at in 0..4 {
            let right = if at == 3 { SHEET_WORDS } else { BOOK_WORDS };
            for length in [0, 1, SHEET_WORDS, BOOK_WORDS, right - 1, right + 1].into_iter().filter(|&length| length != right) {
                let third = Holding::untouched();
                let mut lists = [first.clone(), second.clone(), third.book, third.sheet];
                lists[at].resize(length, 65535);
                let [first, second, book, sheet] = lists;
                assert_eq!(Holding { book, sheet }.merge(&first, &second), 1, "list {at} of {length} words");
            }
        }
    }
}

/// A torn book on either side: 2, before 12 and 19.
#[test]
fn torn_books() {
    let (good, deep, full) = (mast(), chain(LEVELS), of_size(1, NODES));
    let mut torn = good.clone();
    torn[0] = 1;
    for other in [&good, &deep, &full, &torn] {
        assert_eq!((refusal(&torn, other), refusal(other, &torn)), (2, 2));
    }
}

/// Seven levels on both sides make eight; eight on either side: 12, before 19.
#[test]
fn levels() {
    let (deep, fresh, seven) = (chain(LEVELS), Holding::fresh().book, chain(LEVELS - 1));
    for levels in 1..LEVELS {
        let book = chain(levels);
        assert_eq!((lowest(&merged(&book, &fresh)), lowest(&merged(&fresh, &book))), (Some(levels + 1), Some(levels + 1)));
        assert_eq!((lowest(&merged(&book, &seven)), lowest(&merged(&seven, &book))), (Some(LEVELS), Some(LEVELS)));
        compare_costs(&book, &seven, &mut Random::new(1));
        assert_eq!((refusal(&deep, &book), refusal(&book, &deep)), (12, 12));
    }
    let full = of_size(MACHINES, NODES);
    assert_eq!((refusal(&deep, &deep), refusal(&deep, &full), refusal(&full, &deep)), (12, 12, 12));
    let crowded = Shape { growth: Growth::EvenChain, machines: LEVELS, nodes: 200, ..Shape::full() };
    let crowded = random_book(&mut Random::new(1), &crowded);
    assert_eq!(refusal(&crowded, &crowded), 12);
}

/// The lowest level of a book.
fn lowest(holding: &Holding) -> Option<usize> {
    let tree = holding.tree();
    tree.machines_in_use().into_iter().filter_map(|m| tree.level(m)).max()
}

/// Exactly enough numbers, of machines, of nodes and of both, and one too few.
#[test]
fn numbers_enough_and_one_too_few() {
    let cases = [
        ((40, 100), (23, 60), 0),
        ((40, 100), (24, 60), 19),
        ((41, 100), (23, 60), 19),
        ((3, 120), (4, 134), 0),
        ((3, 120), (4, 135), 19),
        ((3, 121), (4, 134), 19),
        ((40, 120), (23, 134), 0),
        ((40, 120), (24, 135), 19),
        ((62, 125), (1, 1), 0),
        ((1, 1), (62, 125), 0),
        ((63, 125), (1, 1), 19),
        ((1, 1), (63, 125), 19),
        ((64, 127), (1, 1), 19),
        ((1, 253), (1, 1), 0),
        ((1, 1), (1, 253), 0),
        ((1, 254), (1, 1), 19),
        ((1, 1), (1, 254), 19),
        ((1, 256), (1, 1), 19),
        ((64, 256), (64, 256), 19),
    ];
    for ((machines, nodes), (more_machines, more_nodes), expected) in cases {
        let number = refusal(&of_size(machines, nodes), &of_size(more_machines, more_nodes));
        assert_eq!(number, expected, "{machines} and {more_machines} machines, {nodes} and {more_nodes} nodes");
    }
}

/// Every number in use, to the last.
#[test]
fn full_to_the_last_number() {
    let third = merged(&of_size(40, 120), &of_size(23, 134));
    let tree = third.tree();
    assert!(tree.machines.iter().all(Option::is_some) && tree.nodes.iter().all(Option::is_some));
    assert_eq!((tree.root, tree.machine(63).start, tree.node(255).below), (63, 254, Some(40)));
    third.compare_round_trip(&mut Holding::fresh());
}

/// A book merged with itself until there are too few numbers, and one merged with the fresh book until there are too many levels.
#[test]
fn again_and_again() {
    let (mut twins, mut tower) = (Holding::fresh().book, Holding::fresh().book);
    for machines in [3, 7, 15, 31, 63] {
        twins = merged(&twins, &twins).book;
        assert_eq!(decode(&twins).map(|tree| tree.machines_in_use().len()), Some(machines));
    }
    assert_eq!(refusal(&twins, &twins), 19);
    for _ in 1..LEVELS {
        tower = merged(&tower, &Holding::fresh().book).book;
    }
    assert_eq!(refusal(&tower, &Holding::fresh().book), 12);
}

/// One of the two books: how its own states cost, and each state's old and new number.
struct Half {
    flat: Flat,
    states: Vec<(usize, usize)>,
}

fn halves(first: &[u32], second: &[u32]) -> [Half; 2] {
    let [one, other] = [first, second].map(|words| decode(words).expect("a well-formed book"));
    let numbers = Numbers::of(&one, &other).expect("numbers enough");
    let kept = one.states().into_iter().map(|s| (s, s)).collect();
    let moved = other.states().into_iter().map(|s| (s, numbers.nodes[&s])).collect();
    [Half { flat: Flat::of(first), states: kept }, Half { flat: Flat::of(second), states: moved }]
}

/// Least costs in the merged book, by the flat search and by plans, are the old ones inside each book, with no way between the two.
fn compare_costs(first: &[u32], second: &[u32], random: &mut Random) {
    let (third, halves) = (merged(first, second), halves(first, second));
    let flat = Flat::of(&third.book);
    for half in &halves {
        for &(old, new) in &half.states {
            let (before, after) = (half.flat.costs_from(old), flat.costs_from(new));
            assert!(half.states.iter().all(|&(old, new)| before[old] == after[new]), "another cost from {new}");
            assert_eq!(before.iter().flatten().count(), after.iter().flatten().count(), "a way out of the book");
        }
    }
    let some = halves.each_ref().map(|half| random.shuffled(half.states.len()).into_iter().take(6).map(|i| half.states[i]).collect());
    compare_plans(&third, &halves, some);
}

/// Plans between all pairs of some states of both books.
fn compare_plans(third: &Holding, halves: &[Half; 2], some: [Vec<(usize, usize)>; 2]) {
    let all: Vec<(usize, usize, usize)> = (0..2).flat_map(|h| some[h].iter().map(move |&(old, new)| (h, old, new))).collect();
    for &(half, from, new_from) in &all {
        let before = halves[half].flat.costs_from(from);
        for &(other, to, new_to) in &all {
            let expected = before[to].filter(|_| half == other).ok_or(Refusal::NoWay);
            let mut buffer = [0; himm::PLAN_BYTES];
            let plan = himm::plan(&third.book, &third.sheet, new_from as u32, new_to as u32, &mut buffer);
            assert_eq!(plan.map(|plan| plan.cost), expected, "plan {new_from} {new_to}");
        }
    }
}

/// Merges two random books; where that is done, compares costs and takes the merged book through write and load.
fn compare_pair(random: &mut Random, shapes: [Shape; 2]) -> u32 {
    let [first, second] = shapes.map(|shape| random_book(random, &shape));
    let (number, third) = merge(&first, &second);
    if number == 0 {
        compare_costs(&first, &second, random);
        third.compare_round_trip(&mut Holding::ladder());
    }
    number
}

#[test]
fn random_pairs() {
    let mut answers = vec![];
    for seed in 0..300 {
        let mut random = Random::new(40_000 + seed);
        let shapes = [Shape::random(&mut random), Shape::random(&mut random)];
        answers.push(compare_pair(&mut random, shapes));
    }
    let [done, deep, full] = counts(&answers, [0, 12, 19]);
    assert!(done > 150 && deep > 20 && full > 0, "{done} done, {deep} too deep, {full} with too few numbers");
}

/// Pairs that need all numbers or one less, and pairs that lack one.
#[test]
fn nearly_full_pairs() {
    let mut answers = vec![];
    for seed in 0..60 {
        let mut random = Random::new(41_000 + seed);
        let growth = random.pick(&[Growth::Any, Growth::Wide]);
        let (machines, all_machines) = (2 + random.below(60), 62 + random.below(3));
        let (nodes, all_nodes) = (machines + random.below(128), 253 + random.below(3));
        let (filled, holds, leaves) = (random.pick(&[10, 60, 100]), random.pick(&[0, 20]), random.pick(&[0, 50, 100]));
        let shape = Shape { growth, machines, nodes, filled, holds, leaves, ..Shape::full() };
        let rest = Shape { machines: all_machines - machines, nodes: all_nodes - nodes, ..shape };
        answers.push(compare_pair(&mut random, [shape, rest]));
    }
    let [done, full] = counts(&answers, [0, 19]);
    assert!(done > 15 && full > 5, "{done} done, {full} with too few numbers");
}

#[test]
fn pairs_of_chains() {
    let mut answers = vec![];
    for seed in 0..40 {
        let mut random = Random::new(42_000 + seed);
        let shape = Shape { growth: Growth::EvenChain, nodes: 100, filled: 30, leaves: 70, ..Shape::full() };
        let shapes = [0, 20].map(|holds| Shape { machines: 6 + random.below(3), commands: random.pick(&[2, COMMANDS]), holds, ..shape });
        answers.push(compare_pair(&mut random, shapes));
    }
    let [done, deep] = counts(&answers, [0, 12]);
    assert!(done > 5 && deep > 5, "{done} done, {deep} too deep");
}

/// Every word of a small book, changed in several ways, as the first book or as the second.
#[test]
fn torn_books_word_by_word() {
    let mut random = Random::new(43_000);
    let shape = Shape { machines: 5, nodes: 14, filled: 60, holds: 20, leaves: 50, ..Shape::full() };
    let (good, other) = (random_book(&mut random, &shape), random_book(&mut random, &shape));
    let mut answers = vec![];
    for at in 0..BOOK_WORDS {
        for word in words(&mut random, good[at]) {
            let mut torn = good.clone();
            torn[at] = word;
            answers.push(if random.chance(50) { refusal(&torn, &other) } else { refusal(&other, &torn) });
        }
    }
    let [done, torn] = counts(&answers, [0, 2]);
    assert!(done > 200 && torn > 20_000, "{done} done, {torn} torn");
}

/// Several fields of one of two random books, or of both, copied from one place to another.
#[test]
fn torn_books_by_copying() {
    let mut answers = vec![];
    for seed in 0..1000 {
        let mut random = Random::new(44_000 + seed);
        let mut books = [0, 1].map(|_| {
            let shape = Shape::random(&mut random);
            random_book(&mut random, &shape)
        });
        for _ in 0..1 + random.below(3) {
            let at = random.below(2);
            copy_a_field(&mut random, &mut books[at]);
        }
        answers.push(refusal(&books[0], &books[1]));
    }
    let [done, torn, deep] = counts(&answers, [0, 2, 12]);
    assert!(done > 100 && torn > 300 && deep > 10, "{done} done, {torn} torn, {deep} too deep");
}

/// Machines that hold each other and never come to the root, and a ninth level.
#[test]
fn rings_and_nine_levels() {
    let good = mast();
    for length in 1..20 {
        let mut ring = chain(7);
        (0..length).for_each(|k| put_over(&mut ring, 30 + k, 30 + (k + 1) % length));
        assert_eq!((refusal(&ring, &good), refusal(&good, &ring)), (2, 2));
    }
    let mut nine = chain(LEVELS);
    nine[node_at(7) + 1] = 8;
    nine[machine_at(8)..][..2].copy_from_slice(&[7, 8]);
    nine[node_at(8)] = 8;
    assert_eq!((refusal(&nine, &good), refusal(&good, &nine)), (2, 2));
}

/// Books of random words.
#[test]
fn noise() {
    let (mut random, good) = (Random::new(45_000), mast());
    for limit in [1, 2, 64, 256, 65536, usize::MAX] {
        for _ in 0..20 {
            let noise: Vec<u32> = (0..BOOK_WORDS).map(|_| random.below(limit) as u32).collect();
            assert_eq!((refusal(&noise, &good), refusal(&good, &noise), refusal(&noise, &noise)), (2, 2, 2));
        }
    }
}

/// A merge in a thread with as much stack as the header asks for.
#[test]
fn a_small_stack() {
    let (first, second) = (of_size(40, 120), of_size(23, 134));
    let (number, expected) = merge(&first, &second);
    let call = move || {
        let mut third = Holding::untouched();
        himm::merge(&first, &second, &mut third.book, &mut third.sheet).map(|()| third)
    };
    let thread = std::thread::Builder::new().stack_size(128 * 1024).spawn(call).expect("a thread");
    assert!(number == 0 && thread.join().expect("an end") == Ok(expected));
}
