//! Random books with holds: every command on nodes that are held and released; plans between every pair of states; streams; sheets of
//! other holds.

mod common;

use common::{changed_pairs, counts, hold, last_commands, states, Holding};
use himm_model::book::encode;
use himm_model::random::{Growth, Random, Shape};
use himm_model::sheet::filled;
use himm_model::stream::Command;
use himm_model::tree::Tree;
use himm_model::{COMMANDS, LEVELS, MACHINES, NODES};

/// The refusal of a held start.
const HELD_START: u32 = 21;

/// A random book with holds and few nodes.
fn small(random: &mut Random) -> Holding {
    let shape = Shape { nodes: 14, machines: 1 + random.below(6), holds: random.pick(&[10, 30, 60]), ..Shape::random(random) };
    Holding::random(random, &shape)
}

/// The tree with every node released.
fn released(tree: &Tree) -> Tree {
    let mut tree = tree.clone();
    tree.nodes.iter_mut().flatten().for_each(|node| node.on_hold = false);
    tree
}

/// The nodes in use that are not start nodes.
fn may_be_held(tree: &Tree) -> Vec<usize> {
    (0..NODES).filter(|&n| tree.nodes[n].is_some() && !tree.is_start(n)).collect()
}

/// Each command that names a node in use, in each of its places, with new numbers where it wants some.
fn commands_on(tree: &Tree, node: usize) -> Vec<Command> {
    let new = (0..NODES).find(|&n| tree.nodes[n].is_none()).expect("an unused node");
    let machine = (0..MACHINES).find(|&m| tree.machines[m].is_none()).expect("an unused machine");
    let owner = tree.node(node).owner;
    let mut all = vec![
        Command::Begin { machine: owner, start: node },
        Command::Add { machine: owner, node },
        Command::Add { machine: owner, node: new },
        Command::Refine { node, machine, start: new },
        Command::Refine { node: tree.states()[0], machine, start: node },
        Command::Remove { node },
        Command::Start { node },
        Command::Crown { machine, node },
        Command::Crown { machine, node: new },
        Command::Refresh,
    ];
    all.extend((0..3).map(|hold| Command::Hold { node, hold }));
    all.extend([owner, machine].map(|machine| Command::Leave { machine, cost: 2 }));
    all.extend((0..COMMANDS).map(|command| Command::Clear { node, command }));
    for (command, other) in (0..COMMANDS).zip(tree.nodes_of(owner).into_iter().cycle()) {
        all.push(Command::Arrow { node, command, target: other, cost: command });
        all.push(Command::Arrow { node: other, command, target: node, cost: command });
    }
    all
}

/// Each of these on a node as it is, held or not, then a refresh, and the book written; gives the refusals or 0.
fn compare_commands(holding: &Holding, node: usize) -> Vec<u32> {
    let mut answers = vec![];
    for command in commands_on(&holding.tree(), node) {
        let mut edited = holding.clone();
        answers.push(edited.load(&command.bytes()).number);
        edited.load(&[himm::REFRESH]);
        edited.compare_write(&edited.view());
    }
    answers
}

/// Every node of small random books, each held and released where that may be, with every command.
#[test]
fn every_command_held_and_released() {
    let (mut held, mut free) = (vec![], vec![]);
    for seed in 0..30 {
        let mut random = Random::new(71_000 + seed);
        let good = small(&mut random);
        for node in may_be_held(&good.tree()) {
            for (byte, answers) in [(1, &mut held), (0, &mut free)] {
                let mut holding = good.clone();
                assert_eq!(holding.load(&[hold(node, byte), vec![himm::REFRESH]].concat()).number, 0);
                answers.extend(compare_commands(&holding, node));
            }
        }
        good.tree().machines_in_use().iter().for_each(|&m| free.extend(compare_commands(&good, good.tree().machine(m).start)));
    }
    for answers in [held, free] {
        let [done, range, used, start] = counts(&answers, [0, 6, 8, HELD_START]);
        assert!(done > 10_000 && range > 200 && used > 500 && start > 50, "{done}, {range}, {used}, {start}");
    }
}

/// How many nodes are held, plain and refined.
fn held_nodes(tree: &Tree) -> [usize; 2] {
    let held = tree.nodes_on_hold();
    let plain = held.iter().filter(|&&n| tree.is_state(n)).count();
    [plain, held.len() - plain]
}

/// Plans between every pair of states of some books, and every exit and step. Gives how many nodes were held, plain and refined, and how
/// many pairs had another cost and no way by the holds.
fn compare_all(books: impl Iterator<Item = Holding>) -> [usize; 4] {
    let mut sums = [0; 4];
    for holding in books {
        holding.compare_all_pairs();
        let tree = holding.tree();
        let numbers = held_nodes(&tree).into_iter().chain(changed_pairs(&tree, &released(&tree)));
        sums.iter_mut().zip(numbers).for_each(|(sum, number)| *sum += number);
    }
    sums
}

#[test]
fn small_books_between_all_pairs() {
    let sums = compare_all((0..500).map(|seed| small(&mut Random::new(72_000 + seed))));
    let [plain, refined, changed, no_way] = sums;
    assert!(plain > 1_000 && refined > 100 && changed > 1_000 && no_way > 5_000, "{sums:?}");
}

/// A book of any kind with nodes enough for several ways round, a chain of eight levels among these.
fn larger(random: &mut Random) -> Holding {
    let growth = random.pick(&[Growth::Any, Growth::Wide, Growth::EvenChain]);
    let machines = if growth == Growth::EvenChain { LEVELS } else { 4 + random.below(20) };
    let (filled, holds) = (random.pick(&[15, 30, 60]), random.pick(&[5, 15, 30]));
    Holding::random(random, &Shape { growth, machines, nodes: 60, filled, holds, ..Shape::full() })
}

#[test]
fn larger_books_between_all_pairs() {
    let sums = compare_all((0..40).map(|seed| larger(&mut Random::new(73_000 + seed))));
    let [plain, refined, changed, no_way] = sums;
    assert!(plain > 100 && refined > 25 && changed > 5_000 && no_way > 5_000, "{sums:?}");
}

#[test]
fn full_books_between_all_pairs() {
    let full = |holds: usize| Holding::random(&mut Random::new(74_000), &Shape { filled: 60, holds, ..Shape::full() });
    let sums = compare_all([10, 40].into_iter().map(full));
    let [plain, refined, changed, no_way] = sums;
    assert!(plain > 20 && refined > 10 && changed > 1_000 && no_way > 1_000, "{sums:?}");
}

/// The stream of a book with holds, loaded into fresh, ladder and held holdings, and into its own; its holds stand at its end by node, with
/// nothing behind them but costs of leaving.
#[test]
fn round_trips() {
    let mut last = Holding::fresh();
    for seed in 0..150 {
        let mut random = Random::new(75_000 + seed);
        let shape = Shape { holds: random.pick(&[5, 30, 100]), ..Shape::random(&mut random) };
        let holding = Holding::random(&mut random, &shape);
        for mut other in [Holding::fresh(), Holding::ladder(), holding.clone(), last] {
            holding.compare_round_trip(&mut other);
        }
        let mut out = vec![0; himm::STREAM_BYTES];
        let stream = himm::write(&holding.book, &mut out).expect("a well-formed book");
        assert!(stream.ends_with(&last_commands(&holding.book)));
        last = holding;
    }
}

/// A hold and its release give back the book, and so do a release and the hold; refreshed, the sheet is one of the old book's.
#[test]
fn there_and_back() {
    for seed in 0..60 {
        let good = small(&mut Random::new(76_000 + seed));
        let tree = good.tree();
        for node in may_be_held(&tree) {
            let byte = tree.node(node).on_hold as usize;
            let mut holding = good.clone();
            assert_eq!(holding.load(&hold(node, 1 - byte)).number, 0);
            assert!(holding.book != good.book);
            assert_eq!(holding.load(&[hold(node, byte), vec![himm::REFRESH]].concat()).number, 0);
            assert!(holding.book == good.book);
        }
    }
}

/// Sheets that count shut transitions, or leave out those that count, on random books.
#[test]
fn sheets_of_other_holds() {
    let mut answers = vec![];
    for seed in 0..400 {
        let mut random = Random::new(70_000 + seed);
        let held = small(&mut random);
        let free = Holding { book: encode(&released(&held.tree())), sheet: filled(&released(&held.tree()), &mut |_| 0) };
        for (book, sheet) in [(&held.book, &free.sheet), (&free.book, &held.sheet)] {
            let mixed = Holding { book: book.clone(), sheet: sheet.clone() };
            let view = mixed.view();
            mixed.compare_exits(&view);
            mixed.compare_plans(&view, &states(&held.tree()));
            mixed.clone().load(&[himm::REFRESH]);
            answers.push(view.whole.err().unwrap_or(0));
        }
    }
    let [truths, lies] = counts(&answers, [0, 3]);
    assert!(truths > 20 && lies > 300, "{truths} truths, {lies} lies");
}
