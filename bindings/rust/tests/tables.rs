//! Opening from a table of rows, and the ladder's rows for each depth: words written out, every depth between every pair of states, random
//! tables with gaps and their edits, each kind of table that is refused, damaged tables, every small table, refusals in their order.

mod common;

use common::season::season;
use common::words::transition;
use common::{compare_ladder, counts, nodes_to_try, plan, Holding};
use himm::{Refusal, ABSENT, BOOK_WORDS, LARGEST_DEPTH, ROW_WORDS, SHEET_WORDS, TABLE_WORDS};
use himm_model::book::{hold_at, leave_at, machine_at, node_at, well_formed};
use himm_model::random::{table, Growth, Random, Shape};
use himm_model::sheet::{blank, machine_row};
use himm_model::table::{row, UNUSED};
use himm_model::tree::{Machine, Node, Tree};
use himm_model::{BLANK, COMMANDS, LEVELS, MACHINES, NODES};
use std::collections::BTreeMap;

/// The most rows of a table.
const ROWS: usize = TABLE_WORDS / ROW_WORDS;

/// The rows that the library gives for a depth.
fn ladder(depth: u32) -> Vec<u32> {
    himm::ladder(depth, &mut [0; TABLE_WORDS]).expect("a depth from 1 to 6").to_vec()
}

/// What a table's opening answers over a holding that is none: the refusal or 0.
fn answer(rows: &[u32]) -> u32 {
    Holding::untouched().open_table(rows)
}

// The generator.

#[test]
fn the_rows_of_the_smallest_ladders() {
    let one = [[0, ABSENT, 0], [0, ABSENT, 1], [0, ABSENT, 0]];
    let two = [
        [0, 1, 0],
        [0, ABSENT, 1],
        [0, 2, 0],
        [1, ABSENT, 0],
        [1, ABSENT, 1],
        [1, ABSENT, 0],
        [2, ABSENT, 0],
        [2, ABSENT, 1],
        [2, ABSENT, 0],
    ];
    assert_eq!((ladder(1), ladder(2)), (one.concat(), two.concat()));
    assert_eq!([1, 2, 3, 4, 5, 6].map(|depth| ladder(depth).len()), [9, 27, 63, 135, 279, 567]);
}

/// Every length of an output up to the longest rows and a little more, at each depth and at some that are none: 24 before 15.
#[test]
fn room_to_the_word() {
    let wrong = [0, 7, 8, 64, 255, 256, 257, 262, 65536, 65542, 1 << 31, (1 << 31) + 6, u32::MAX - 1, u32::MAX];
    let answers = |depth: u32| -> Vec<u32> { (0..=TABLE_WORDS + 3).map(|room| compare_ladder(depth, room).err().unwrap_or(0)).collect() };
    for depth in 1..=LARGEST_DEPTH {
        let words = ladder(depth).len();
        assert_eq!(counts(&answers(depth), [0, 15]), [TABLE_WORDS + 4 - words, words], "depth {depth}");
    }
    for depth in wrong {
        assert_eq!(counts(&answers(depth), [24]), [TABLE_WORDS + 4], "depth {depth}");
    }
}

#[test]
fn refusals_of_the_generator() {
    let ladder = |depth: u32, room: usize| himm::ladder(depth, &mut vec![0; room]).map(<[u32]>::len);
    assert_eq!(
        (ladder(0, 0), ladder(7, 0), ladder(u32::MAX, 567)),
        (Err(Refusal::WrongDepth), Err(Refusal::WrongDepth), Err(Refusal::WrongDepth))
    );
    assert_eq!((ladder(1, 8), ladder(1, 9), ladder(6, 566)), (Err(Refusal::BufferTooShort), Ok(9), Err(Refusal::BufferTooShort)));
}

// The ladders opened.

/// The rows for depth 6 open the ladder, word by word, and say what its book says of each node.
#[test]
fn depth_6_is_the_ladder() {
    let (ladder, rows) = (Holding::ladder(), ladder(6));
    let opened = Holding::of_table(&rows);
    assert!(opened.book == ladder.book && opened.sheet == ladder.sheet);
    for (n, row) in rows.chunks(ROW_WORDS).enumerate() {
        assert_eq!(row[..2], ladder.book[node_at(n)..][..2], "node {n}");
        assert_eq!(row[2] == 1, ladder.book[machine_at(row[0] as usize) + 1] == n as u32, "node {n}");
    }
}

/// Each depth opened, refreshed, and planned between every pair of states, with every exit and step.
#[test]
fn every_depth_between_all_pairs() {
    for depth in 1..=LARGEST_DEPTH {
        let (mut holding, machines) = (Holding::of_table(&ladder(depth)), 2usize.pow(depth) - 1);
        let tree = holding.tree();
        assert_eq!((tree.root, tree.machines_in_use().len(), tree.states().len()), (0, machines, 2 * machines + 1));
        assert_eq!(tree.machines_in_use().iter().filter_map(|&m| tree.level(m)).max(), Some(depth as usize));
        holding.compare_round_trip(&mut Holding::ladder());
        assert_eq!(holding.load(&[himm::REFRESH]).number, 0);
        holding.compare_all_pairs();
    }
}

/// From the lowest state of machine 1 to the highest of machine 2: two commands inside, one out of node 0, one into node 2, one inside.
#[test]
fn plans_on_the_ladder_of_depth_2() {
    let mut holding = Holding::of_table(&ladder(2));
    assert_eq!(plan(&holding, 3, 8), Err(Refusal::Stale));
    assert_eq!(holding.load(&[himm::REFRESH]).number, 0);
    assert_eq!((plan(&holding, 3, 8), plan(&holding, 8, 3)), (Ok((5, vec![1; 5])), Ok((5, vec![0; 5]))));
    assert_eq!(
        (plan(&holding, 1, 4), plan(&holding, 1, 7), plan(&holding, 4, 1)),
        (Ok((1, vec![0])), Ok((1, vec![1])), Ok((2, vec![1, 1])))
    );
    let exits = [0, 1, 2].map(|x| himm::exit(&holding.book, &holding.sheet, 1, x));
    assert_eq!((exits, himm::step(&holding.book, 3, 0)), ([Ok(1), Ok(1), Ok(0)], Err(Refusal::Stops)));
}

// Tables with gaps.

/// Machine 5, the root, has the nodes 1, 4 and 6, and machine 9 below node 4 the nodes 2 and 5; there are no nodes 0, 3 and 7.
fn gaps() -> Vec<u32> {
    let (five, nine) = ([[5, ABSENT, 0], [5, 9, 1], [5, ABSENT, 0]], [[9, ABSENT, 1], [9, ABSENT, 0]]);
    [UNUSED, five[0], nine[0], UNUSED, five[1], nine[1], five[2], UNUSED].concat()
}

#[test]
fn every_word_of_a_table_with_gaps() {
    let mut book = vec![ABSENT; BOOK_WORDS];
    (0..NODES).for_each(|n| book[node_at(n) + 2..][..COMMANDS].fill(BLANK));
    book[hold_at(0)..].fill(0);
    book[0] = 5;
    book[machine_at(5)..][..2].copy_from_slice(&[ABSENT, 4]);
    book[machine_at(9)..][..2].copy_from_slice(&[4, 2]);
    for (n, owner, below) in [(1, 5, ABSENT), (4, 5, 9), (6, 5, ABSENT), (2, 9, ABSENT), (5, 9, ABSENT)] {
        book[node_at(n)..][..2].copy_from_slice(&[owner, below]);
    }
    for (n, command, target) in [(4, 0, 1), (6, 0, 4), (1, 1, 4), (4, 1, 6), (5, 0, 2), (2, 1, 5)] {
        book[node_at(n) + 2 + command] = target * 65536 + 1;
    }
    let mut sheet = blank();
    (sheet[machine_row(5)], sheet[machine_row(9)]) = (1, 1);
    let mut holding = Holding::of_table(&gaps());
    assert!(holding.book == book && holding.sheet == sheet);
    assert_eq!(holding.load(&[himm::REFRESH]).number, 0);
    assert_eq!((plan(&holding, 1, 6), plan(&holding, 6, 1)), (Ok((3, vec![1, 1, 1])), Ok((2, vec![0, 0]))));
}

/// A table's rows as the words of its book have them, with the neighbours looked for row by row; no model has a part in it.
fn compare_words(rows: &[u32], book: &[u32]) {
    let count = rows.len() / ROW_WORDS;
    let (cell, owner) = (|n: usize, k: usize| rows[ROW_WORDS * n + k], |n: usize| rows[ROW_WORDS * n]);
    let number = |place: Option<usize>| place.map_or(ABSENT, |n| n as u32);
    for n in 0..NODES {
        let fellow = |&v: &usize| n < count && owner(n) != ABSENT && owner(v) == owner(n);
        let neighbours = [(0..n.min(count)).rfind(fellow), (n + 1..count).find(fellow)];
        let words = neighbours.map(|v| v.map_or(BLANK, |v| v as u32 * 65536 + 1));
        assert_eq!([0, 1].map(|x| book[node_at(n) + 2 + x]), words, "node {n}");
        assert!(book[node_at(n) + 4..][..COMMANDS - 2].iter().all(|&word| word == BLANK), "node {n}");
        let fields = if n < count { [cell(n, 0), cell(n, 1)] } else { [ABSENT; 2] };
        assert_eq!(book[node_at(n)..][..2], fields, "node {n}");
    }
    for m in 0..MACHINES {
        let holder = (0..count).find(|&n| cell(n, 1) == m as u32);
        let start = (0..count).find(|&n| owner(n) == m as u32 && cell(n, 2) == 1);
        assert_eq!(book[machine_at(m)..][..2], [number(holder), number(start)], "machine {m}");
        assert_eq!(book[0] == m as u32, start.is_some() && holder.is_none(), "machine {m}");
    }
    assert!(book[hold_at(0)..].iter().all(|&word| word == 0));
}

/// A table with a random tree, and unused rows in most.
fn random_table(random: &mut Random) -> Vec<u32> {
    let shape = Shape::random(random);
    let nodes = shape.nodes.min(ROWS);
    let more = random.below(ROWS - nodes + 1);
    let rows = random.pick(&[nodes, nodes + more.min(4), nodes + more, ROWS]);
    table(random, &Shape { nodes, ..shape }, rows)
}

/// What random tables are to have: an unused row, a root that is not 0, a machine with other machines' nodes between its own, the last
/// machine, the last row in use, eight levels.
fn traits(rows: &[u32], tree: &Tree) -> [bool; 6] {
    let between = |m: usize| {
        let nodes = tree.nodes_of(m);
        (nodes[0]..nodes[nodes.len() - 1]).any(|n| tree.nodes[n].as_ref().is_some_and(|node| node.owner != m))
    };
    [
        rows.chunks(ROW_WORDS).any(|row| row == UNUSED),
        tree.root != 0,
        tree.machines_in_use().into_iter().any(between),
        tree.machines[MACHINES - 1].is_some(),
        tree.nodes[ROWS - 1].is_some(),
        tree.is_deep(),
    ]
}

/// Random tables: every word, the stream, and plans between some states.
#[test]
fn random_tables() {
    let mut met = [0; 6];
    for seed in 0..400 {
        let mut random = Random::new(110_000 + seed);
        let rows = random_table(&mut random);
        let mut holding = Holding::of_table(&rows);
        compare_words(&rows, &holding.book);
        holding.compare_round_trip(&mut Holding::ladder());
        let tree = holding.tree();
        traits(&rows, &tree).into_iter().zip(&mut met).for_each(|(has, count)| *count += has as usize);
        assert_eq!(holding.load(&[himm::REFRESH]).number, 0);
        let view = holding.view();
        holding.compare_plans(&view, &nodes_to_try(&tree, &mut random, 12));
        holding.compare_exits(&view);
        holding.compare_steps(&view);
    }
    assert!(met.iter().all(|&count| count > 30), "{met:?}");
}

/// Small ones between every pair of states.
#[test]
fn small_tables_between_all_pairs() {
    for seed in 0..150 {
        let mut random = Random::new(111_000 + seed);
        let shape = Shape { nodes: 14, machines: 1 + random.below(8), ..Shape::random(&mut random) };
        let mut holding = Holding::of_table(&table(&mut random, &shape, 20));
        assert_eq!(holding.load(&[himm::REFRESH]).number, 0);
        holding.compare_all_pairs();
    }
}

/// Lists of random edits after an opening from a table, and plans after them.
#[test]
fn edits_after_tables() {
    for seed in 0..40 {
        let rows = random_table(&mut Random::new(112_000 + seed));
        season(113_000 + seed, Holding::of_table(&rows), 25);
    }
    for depth in 1..=LARGEST_DEPTH {
        season(114_000 + depth as u64, Holding::of_table(&ladder(depth)), 25);
    }
}

/// What stood in book and sheet does not matter, and a table that is refused leaves it.
#[test]
fn over_other_holdings() {
    let mut random = Random::new(115_000);
    let (good, bad) = (gaps(), gaps()[..6].to_vec());
    let noise = Holding {
        book: (0..BOOK_WORDS).map(|_| random.word() as u32).collect(),
        sheet: (0..SHEET_WORDS).map(|_| random.word() as u32).collect(),
    };
    for over in [Holding::fresh(), Holding::ladder(), Holding::random(&mut random, &Shape::longest()), noise] {
        assert_eq!((over.clone().open_table(&good), over.clone().open_table(&bad)), (0, 2));
    }
}

// The edges of tables.

/// A row of machine 63 for each node, node 0 its start.
fn one_machine(rows: usize) -> Vec<u32> {
    (0..rows).flat_map(|n| [63, ABSENT, (n == 0) as u32]).collect()
}

/// Every length of a table up to the longest and a little more: whole rows and 189 at most, else 1; without a row there is no root.
#[test]
fn every_length() {
    let words = one_machine(ROWS + 10);
    for length in 0..words.len() {
        let expected = if length % ROW_WORDS != 0 || length > TABLE_WORDS { 1 } else { 2 * (length == 0) as u32 };
        assert_eq!(answer(&words[..length]), expected, "{length} words");
    }
    assert_eq!((answer(&one_machine(188)), answer(&one_machine(189)), answer(&one_machine(190))), (0, 0, 1));
    assert_eq!(answer(&[one_machine(189), UNUSED.to_vec()].concat()), 1);
    assert_eq!((answer(&one_machine(1)), answer(&[])), (0, 2));
}

/// The longest machine: 188 commands from its lowest state to its highest.
#[test]
fn one_machine_of_189_nodes() {
    let mut holding = Holding::of_table(&one_machine(ROWS));
    assert_eq!(holding.load(&[himm::REFRESH]).number, 0);
    assert_eq!((plan(&holding, 0, 188), plan(&holding, 188, 0)), (Ok((188, vec![1; 188])), Ok((188, vec![0; 188]))));
    assert_eq!((transition(&holding.book, 188, 1), transition(&holding.book, 0, 0)), (BLANK, BLANK));
}

/// Every machine in use: a root with a node for each other machine, and these of two nodes each.
#[test]
fn all_64_machines() {
    let root = (0..63).map(|m| [63, m, (m == 62) as u32]);
    let others = (0..126).map(|k| [k / 2, ABSENT, k % 2]);
    let mut holding = Holding::of_table(&root.chain(others).flatten().collect::<Vec<_>>());
    assert_eq!((holding.tree().machines_in_use().len(), holding.tree().root), (MACHINES, 63));
    assert_eq!(holding.load(&[himm::REFRESH]).number, 0);
    holding.compare_all_pairs();
}

/// A chain of machines, the lowest with machine 0; each has one node, which holds the machine before it.
fn chain(levels: u32) -> Vec<u32> {
    (0..levels).flat_map(|m| [m, if m == 0 { ABSENT } else { m - 1 }, 1]).collect()
}

#[test]
fn eight_levels_and_nine() {
    assert_eq!([1, 2, 7, 8, 9, 10, 64].map(|levels| answer(&chain(levels))), [0, 0, 0, 0, 2, 2, 2]);
    let mut deep = Holding::of_table(&chain(LEVELS as u32));
    assert_eq!((deep.book[0], deep.load(&[0x12, 0, 0, 20, 0, 20]).number), (7, 12));
    // A ninth level beside a chain of eight, and a second chain of eight.
    let shallow = [chain(8), [7, 10, 0].to_vec(), [10, ABSENT, 1].to_vec()].concat();
    assert_eq!((answer(&shallow), answer(&[shallow, [0, 11, 0].to_vec(), [11, ABSENT, 1].to_vec()].concat())), (0, 2));
}

// Tables that are refused.

/// Rows, with unused ones before and behind them in a second table: both are refused with 2, whatever they are opened over.
fn refused(what: &str, rows: &[[u32; ROW_WORDS]]) {
    for table in [rows.concat(), [&[UNUSED; 2], rows, &[UNUSED]].concat().concat()] {
        assert_eq!((answer(&table), Holding::ladder().open_table(&table)), (2, 2), "{what}: {table:?}");
    }
}

/// Two machines: node 0 of machine 0 holds machine 1, which has the nodes 1 and 2. It opens; each table below differs from it in little.
const TWO: [[u32; ROW_WORDS]; 3] = [[0, 1, 1], [1, ABSENT, 1], [1, ABSENT, 0]];

/// The same with one row replaced.
fn with(n: usize, row: [u32; ROW_WORDS]) -> [[u32; ROW_WORDS]; 3] {
    let mut rows = TWO;
    rows[n] = row;
    rows
}

#[test]
fn no_rows_in_use() {
    assert_eq!(answer(&TWO.concat()), 0);
    refused("no rows", &[]);
    (1..=ROWS - 3).for_each(|count| refused("unused rows alone", &vec![UNUSED; count]));
    assert_eq!((answer(&UNUSED.repeat(ROWS)), answer(&UNUSED.repeat(ROWS + 1))), (2, 1));
}

#[test]
fn starts_that_are_no_starts() {
    for start in [2, 3, 255, 256, 257, 65534, ABSENT, 65536, 65537, 1 << 31, u32::MAX - 1, u32::MAX] {
        (0..3).for_each(|n| refused("a start other than 0 and 1", &with(n, [TWO[n][0], TWO[n][1], start])));
        refused("an unused row with such a start", &[TWO[0], TWO[1], TWO[2], [ABSENT, ABSENT, start]]);
    }
}

#[test]
fn machines_out_of_range() {
    for machine in [64, 65, 100, 127, 128, 255, 256, 65534, 65536, 65537, 1 << 31, u32::MAX - 1, u32::MAX] {
        (0..3).for_each(|n| refused("an owner over 63", &with(n, [machine, TWO[n][1], TWO[n][2]])));
        (0..3).for_each(|n| refused("a machine below over 63", &with(n, [TWO[n][0], machine, TWO[n][2]])));
        refused("a machine over 63 alone", &[[machine, ABSENT, 1]]);
        refused(
            "one that is below a node and has rows",
            &with(0, [0, machine, 1]).map(|[m, b, s]| [if m == 1 { machine } else { m }, b, s]),
        );
    }
    assert_eq!(answer(&with(0, [63, 1, 1]).concat()), 0);
}

#[test]
fn ownerless_rows_with_something_in_them() {
    refused("a start", &[TWO[0], TWO[1], TWO[2], [ABSENT, ABSENT, 1]]);
    refused("a start of none", &[TWO[0], TWO[1], TWO[2], [ABSENT, ABSENT, ABSENT]]);
    refused("the only start of the root", &with(0, [ABSENT, 1, 1]));
    refused("a machine below that is held already", &[TWO[0], TWO[1], TWO[2], [ABSENT, 1, 0]]);
    refused("a machine below that is the root", &[TWO[0], TWO[1], TWO[2], [ABSENT, 0, 0]]);
    refused("a machine below that is not in use", &[TWO[0], TWO[1], TWO[2], [ABSENT, 2, 0]]);
    refused("the holder of a machine, which has no other", &[[0, ABSENT, 1], [1, ABSENT, 1], [ABSENT, 1, 0]]);
    refused("a machine below out of range", &[TWO[0], TWO[1], TWO[2], [ABSENT, 64, 0]]);
    refused("nothing but a start", &[[ABSENT, ABSENT, 1]]);
}

#[test]
fn two_starts_or_none() {
    refused("two starts in the lower machine", &with(2, [1, ABSENT, 1]));
    refused("two in the root", &[TWO[0], TWO[1], TWO[2], [0, ABSENT, 1]]);
    refused("two, far apart", &[&TWO[..], &[UNUSED; 180], &[[0, ABSENT, 1]]].concat());
    refused("three", &[[0, ABSENT, 1]; 3]);
    refused("none in the lower machine", &with(1, [1, ABSENT, 0]));
    refused("none in the root", &with(0, [0, 1, 0]));
    refused("none in a machine alone", &[[0, ABSENT, 0]; 2]);
}

#[test]
fn two_holders_of_one_machine() {
    refused("in one machine", &[TWO[0], TWO[1], TWO[2], [0, 1, 0]]);
    refused("in two machines", &[[0, 1, 1], [0, 2, 0], [1, 2, 1], [2, ABSENT, 1]]);
    refused("of which one is in the machine itself", &with(2, [1, 1, 0]));
    refused("three", &[[0, 1, 1], [0, 1, 0], [0, 1, 0], [1, ABSENT, 1]]);
}

#[test]
fn held_machines_without_rows() {
    for machine in [2, 3, 62, 63] {
        refused("below a node of the lower machine", &with(2, [1, machine, 0]));
        refused("below the only node", &[[0, machine, 1]]);
    }
    refused("one whose rows are past the end", &TWO[..1]);
}

#[test]
fn no_root_or_two() {
    refused("two machines side by side", &[[0, ABSENT, 1], [1, ABSENT, 1]]);
    refused("one beside a tree", &[TWO[0], TWO[1], TWO[2], [2, ABSENT, 1]]);
    refused("two trees", &[TWO, TWO.map(|[m, b, s]| [m + 2, if b == 1 { 3 } else { b }, s])].concat());
    refused("a machine below itself", &[[0, 0, 1]]);
    refused("a machine below itself, by a node that is not its start", &[[0, ABSENT, 1], [0, 0, 0]]);
    refused("the root below its lower machine", &with(2, [1, 0, 0]));
}

#[test]
fn rings() {
    for length in 1..=60 {
        let ring: Vec<[u32; ROW_WORDS]> = (0..length).map(|k| [k + 3, (k + 1) % length + 3, 1]).collect();
        refused("a ring alone", &ring);
        refused("a ring beside a tree", &[&TWO[..], &ring].concat());
        let hung = [&[[0, 3, 1]], &ring[..]].concat();
        refused("a ring below a root, with two holders of one machine", &hung);
    }
}

#[test]
fn nine_levels() {
    let rows = |levels: u32| chain(levels).chunks(ROW_WORDS).map(|row| [row[0], row[1], row[2]]).collect::<Vec<_>>();
    (9..=64).for_each(|levels| refused("a chain of nine levels or more", &rows(levels)));
    let beside: Vec<[u32; ROW_WORDS]> = (20..28).map(|m| [m, if m == 27 { ABSENT } else { m + 1 }, 1]).collect();
    refused("a chain of eight below the root of another", &[&rows(8)[..], &[[7, 20, 0]], &beside].concat());
}

// Damaged tables.

/// Tables to damage: the smallest ladders, those above, and some random ones.
fn tables_to_damage() -> Vec<Vec<u32>> {
    let mut all = vec![ladder(1), ladder(2), ladder(3), gaps(), TWO.concat(), chain(8), one_machine(5)];
    for seed in 0..6 {
        let mut random = Random::new(116_000 + seed);
        let shape = Shape { machines: 2 + random.below(9), nodes: 14, ..Shape::random(&mut random) };
        all.push(table(&mut random, &shape, 18));
    }
    all
}

/// Counts tables that open and those that do not; no other refusal is among them.
fn opened_and_refused(answers: &[u32]) -> [usize; 2] {
    let [opened, refused] = counts(answers, [0, 2]);
    assert_eq!(opened + refused, answers.len());
    [opened, refused]
}

/// Words that every word of a table is replaced by.
const WORDS: [u32; 11] = [0, 1, 2, 63, 64, 255, 256, 65534, 65535, 65536, u32::MAX];

/// Each word of a table replaced by others, one at a time; gives what each table's opening answers.
fn damaged(rows: &[u32], others: impl Fn(u32) -> Vec<u32>) -> Vec<u32> {
    let mut answers = vec![];
    for at in 0..rows.len() {
        for word in others(rows[at]).into_iter().filter(|&word| word != rows[at]) {
            let mut damaged = rows.to_vec();
            damaged[at] = word;
            answers.push(answer(&damaged));
        }
    }
    answers
}

/// Every word of these as another one, and with each of its bits turned round.
#[test]
fn damaged_word_by_word() {
    let others = |old: u32| WORDS.into_iter().chain((0..32).map(|bit| old ^ 1 << bit)).collect();
    let answers: Vec<u32> = tables_to_damage().iter().flat_map(|rows| damaged(rows, others)).collect();
    let [opened, refused] = opened_and_refused(&answers);
    assert!(opened > 100 && refused > 20_000, "{opened} opened, {refused} refused");
}

/// The longest tables, every word: the ladder's rows for depth 6, and a random tree of 64 machines in 189 rows.
#[test]
fn damaged_long_tables() {
    let full = Shape { growth: Growth::Any, nodes: 180, ..Shape::full() };
    let tables = [ladder(6), table(&mut Random::new(117_000), &full, ROWS)];
    let answers: Vec<u32> = tables.iter().flat_map(|rows| damaged(rows, |_| WORDS.to_vec())).collect();
    let [opened, refused] = opened_and_refused(&answers);
    assert!(opened > 50 && refused > 5_000, "{opened} opened, {refused} refused");
}

/// One change of a table that keeps its words in range: a word or a row copied or exchanged, a row put in or taken out, a machine's number
/// changed throughout.
fn change_a_table(random: &mut Random, rows: &mut Vec<u32>) {
    let count = rows.len() / ROW_WORDS;
    let (a, b, k) = (ROW_WORDS * random.below(count), ROW_WORDS * random.below(count), random.below(ROW_WORDS));
    match random.below(9) {
        0 => rows[a + k] = rows[b + k],
        1 => rows.swap(a + k, b + k),
        2 => rows.copy_within(b..b + ROW_WORDS, a),
        3 => (0..ROW_WORDS).for_each(|k| rows.swap(a + k, b + k)),
        4 if count < ROWS => drop(rows.splice(a..a, UNUSED)),
        5 if count > 1 => drop(rows.drain(a..a + ROW_WORDS)),
        6 => rows[a + 2] ^= 1,
        7 => rows[a..a + ROW_WORDS].copy_from_slice(&UNUSED),
        _ => {
            let (old, new) = (rows[a], random.below(MACHINES) as u32);
            let changed = |i: usize, word: u32| i % ROW_WORDS < 2 && word == old && word != ABSENT;
            (0..rows.len()).for_each(|i| rows[i] = if changed(i, rows[i]) { new } else { rows[i] });
        }
    }
}

#[test]
fn damaged_by_copying() {
    let mut answers = vec![];
    for seed in 0..6_000 {
        let mut random = Random::new(118_000 + seed);
        let mut rows = random_table(&mut random);
        for _ in 0..1 + random.below(3) {
            change_a_table(&mut random, &mut rows);
        }
        answers.push(answer(&rows));
    }
    let [opened, refused] = opened_and_refused(&answers);
    assert!(opened > 1_000 && refused > 1_000, "{opened} opened, {refused} refused");
}

/// Tables of random words of every length.
#[test]
fn noise() {
    let mut random = Random::new(119_000);
    for limit in [1, 2, 64, 256, 65536, 65537, usize::MAX] {
        for length in 0..TABLE_WORDS + 10 {
            answer(&(0..length).map(|_| random.below(limit) as u32).collect::<Vec<_>>());
        }
    }
}

// Every small table.

/// Every table of so many rows whose owners, machines below and starts are among these.
fn every_table<'a>(count: usize, words: [&'a [u32]; ROW_WORDS]) -> impl Iterator<Item = Vec<u32>> + 'a {
    let [owners, belows, starts] = words;
    let with_owner = move |&owner| belows.iter().flat_map(move |&below| starts.iter().map(move |&start| [owner, below, start]));
    let rows: Vec<[u32; ROW_WORDS]> = owners.iter().flat_map(with_owner).collect();
    let kinds = rows.len();
    (0..kinds.pow(count as u32)).map(move |k| (0..count as u32).flat_map(|i| rows[k / kinds.pow(i) % kinds]).collect())
}

#[test]
fn every_small_table() {
    let all = [
        (1, [&[0, 1, 63, 64, ABSENT, 65536][..], &[0, 1, 63, 64, ABSENT, 65536], &[0, 1, 2, ABSENT]]),
        (2, [&[0, 63, 64, ABSENT], &[0, 63, 64, ABSENT], &[0, 1, 2]]),
        (3, [&[0, 1, 2, ABSENT], &[0, 1, 2, ABSENT], &[0, 1]]),
        (4, [&[0, 1], &[0, 1, ABSENT], &[0, 1]]),
    ];
    let opened = all.map(|(count, words)| opened_and_refused(&every_table(count, words).map(|rows| answer(&rows)).collect::<Vec<_>>())[0]);
    assert!(opened.iter().all(|&count| count > 0), "{opened:?}");
}

/// Every tree of two machines and three nodes that is well formed, without transitions, by its rows.
fn every_tree() -> BTreeMap<Vec<u32>, Tree> {
    let holders = [None, Some(0), Some(1), Some(2)];
    let held = holders.into_iter().flat_map(|holder| (0..3).map(move |start| Some(Machine::new(holder, start))));
    let machines: Vec<Option<Machine>> = [None].into_iter().chain(held).collect();
    let owned = (0..2).flat_map(|owner| [None, Some(0), Some(1)].map(|below| Some(Node { below, ..Node::plain(owner) })));
    let nodes: Vec<Option<Node>> = [None].into_iter().chain(owned).collect();
    let (mut trees, each) = (BTreeMap::new(), nodes.len());
    for k in 0..2 * machines.len().pow(2) * each.pow(3) {
        let mut tree = Tree { root: k % 2, machines: vec![None; MACHINES], nodes: vec![None; NODES] };
        (0..3).for_each(|n| tree.nodes[n] = nodes[k / 2 / each.pow(n as u32) % each].clone());
        let rest = k / 2 / each.pow(3);
        (tree.machines[0], tree.machines[1]) = (machines[rest % machines.len()].clone(), machines[rest / machines.len()].clone());
        if well_formed(&tree) {
            let rows = (0..3).flat_map(|n| row(&tree, n)).collect();
            assert!(trees.insert(rows, tree).is_none(), "two trees with the same rows");
        }
    }
    trees
}

/// A table opens exactly where it is that of a well-formed tree, and gives this tree: every tree of two machines and three nodes, and every
/// table of three rows or fewer for them.
#[test]
fn tables_that_open_are_those_of_trees() {
    let (trees, words) = (every_tree(), [&[0, 1, ABSENT][..], &[0, 1, ABSENT], &[0, 1, 2]]);
    let mut met = 0;
    for rows in (0..=3).flat_map(|count| every_table(count, words)) {
        let mut holding = Holding::untouched();
        let opened = himm::open_table(&rows, &mut holding.book, &mut holding.sheet);
        let mut whole = rows.clone();
        whole.extend(UNUSED.repeat(3 - rows.len() / ROW_WORDS));
        let mut tree = opened.is_ok().then(|| holding.tree());
        tree.iter_mut().flat_map(|tree| tree.nodes.iter_mut().flatten()).for_each(|node| node.transitions = [None; COMMANDS]);
        assert!(tree.as_ref() == trees.get(&whole), "{rows:?}");
        met += (tree.is_some() && rows == whole) as usize;
    }
    assert!(met == trees.len() && met > 50, "{met} of {} trees", trees.len());
}

// Refusals in their order.

/// Wrong lengths of book, sheet and table, each alone and with others, before what the table says; nothing is written.
#[test]
fn lengths_before_tables() {
    let tables = [gaps(), gaps()[..6].to_vec(), gaps()[..7].to_vec(), one_machine(190), vec![], vec![u32::MAX; 3], vec![u32::MAX; 570]];
    let mut answers = vec![];
    for book in [0, 1, hold_at(0), leave_at(0), BOOK_WORDS - 1, BOOK_WORDS, BOOK_WORDS + 1, 10_000] {
        for sheet in [0, 1, SHEET_WORDS - 1, SHEET_WORDS, SHEET_WORDS + 1, 10_000] {
            for rows in &tables {
                let mut holding = Holding { book: vec![9; book], sheet: vec![9; sheet] };
                answers.push(holding.open_table(rows));
            }
        }
    }
    assert_eq!(counts(&answers, [0, 2, 1]), [1, 3, answers.len() - 4]);
}

#[test]
fn refusals_by_name() {
    let open = |rows: &[u32]| himm::open_table(rows, &mut [0; BOOK_WORDS], &mut [0; SHEET_WORDS]);
    assert_eq!((open(&gaps()), open(&[]), open(&[0])), (Ok(()), Err(Refusal::TornBook), Err(Refusal::WrongLength)));
    assert_eq!(Refusal::WrongDepth.to_string(), "refused with 24: a depth that is not from 1 to 6");
}

/// Both calls in a thread with as much stack as the header asks for.
#[test]
fn a_small_stack() {
    let call = || {
        let (mut holding, mut rows) = (Holding::untouched(), vec![0; TABLE_WORDS]);
        himm::ladder(LARGEST_DEPTH, &mut rows)?;
        himm::open_table(&rows, &mut holding.book, &mut holding.sheet).map(|()| holding)
    };
    let thread = std::thread::Builder::new().stack_size(128 * 1024).spawn(call).expect("a thread");
    assert!(thread.join().expect("an end") == Ok(Holding::ladder()));
}
