//! What leaving a machine costs: the mast book with the numbers written out, refusals and marks, torn words, the largest costs, exit costs
//! by every short list, random books between every pair of states, streams, merges.

mod common;

use common::damage::{each_call, refused_by_each_call};
use common::walkers::Walkers;
use common::words::{leaving, machine_of, upward};
use common::{answer, chain_of_pairs, changed_pairs, counts, exits, hex, last_commands, leave, mast, plan, states, Holding, MAST};
use himm::{Moved, Refusal};
use himm_model::book::{encode, leave_at};
use himm_model::random::{bytes, Costs, Growth, Random, Shape};
use himm_model::sheet::{filled, is_stale};
use himm_model::stream::Command;
use himm_model::tree::Tree;
use himm_model::{COMMANDS, LEVELS, MACHINES};

/// Leaving machine 1 of the mast book costs 7, as a command; node 11 refined by machine 2 with the start 20, and leaving that costs 256.
const LEAVE_1: &str = "1B 01 0007";
const MACHINE_2: &str = "12 000B 02 0014 1B 02 0100";

/// The largest cost of leaving a machine, and of a transition.
const LARGEST: usize = 65535;

/// The machines that cost something to leave, by the last words of a book.
fn left_in(book: &[u32]) -> Vec<(usize, u32)> {
    let words = &book[leave_at(0)..];
    assert_eq!(words.len(), MACHINES);
    (0..MACHINES).filter(|&m| words[m] != 0).map(|m| (m, words[m])).collect()
}

fn moved(state: u32, cost: u32, node: u32) -> Result<Moved, Refusal> {
    Ok(Moved { state, cost, node })
}

// The mast book.

/// Node 1 acts, and machine 1 is left. Where a state acts itself, where the station enters and where it stops, nothing is added.
#[test]
fn a_step_that_leaves_a_machine() {
    let book = mast(LEAVE_1).book;
    assert_eq!(himm::step(&book, 11, 1), moved(2, 10, 1));
    assert_eq!((himm::step(&book, 10, 1), himm::step(&book, 10, 2)), (moved(10, 1, 10), moved(11, 4, 10)));
    assert_eq!((himm::step(&book, 0, 0), himm::step(&book, 2, 0)), (moved(10, 5, 0), moved(0, 7, 2)));
    assert_eq!((himm::step(&book, 11, 0), himm::step(&book, 11, 2)), (Err(Refusal::Stops), Err(Refusal::Stops)));
}

/// State 20 in machine 2, below node 11 in machine 1, below node 1: each node that acts leaves the machines below its own.
#[test]
fn a_step_that_leaves_two_machines() {
    let own = ["14 0014 03 0014 0001", "14 000B 04 000A 0002", "14 0001 05 0001 0003", "14 0001 06 0000 FFFF"].concat();
    let book = mast(&[MACHINE_2, LEAVE_1, &own].concat()).book;
    assert_eq!(himm::step(&book, 20, 3), moved(20, 1, 20));
    assert_eq!(himm::step(&book, 20, 4), moved(10, 2 + 256, 11));
    assert_eq!(himm::step(&book, 20, 1), moved(2, 3 + 7 + 256, 1));
    assert_eq!((himm::step(&book, 20, 5), himm::step(&book, 20, 6)), (moved(10, 3 + 7 + 256, 1), moved(0, 65535 + 7 + 256, 1)));
    assert_eq!((himm::step(&book, 10, 5), himm::step(&book, 10, 2)), (moved(10, 3 + 7, 1), moved(20, 4, 10)));
    assert_eq!(himm::step(&book, 20, 0), Err(Refusal::Stops));
}

/// A command that climbs past a shut transition leaves the machine as well.
#[test]
fn a_step_past_a_shut_transition() {
    let book = mast(&[LEAVE_1, "14 0001 02 0002 0006", "1A 000B 01"].concat()).book;
    assert_eq!((himm::step(&book, 10, 2), himm::step(&book, 10, 1)), (moved(2, 6 + 7, 1), moved(10, 1, 10)));
}

/// From 11 to 10 the way out and in again costs 15 and the leaving, the way inside 20: while leaving costs nothing the station goes out. So
/// it is from 0 to 2: over machine 1 at 12 and the leaving, or past it at 20.
#[test]
fn a_plan_stays_inside_where_leaving_is_dear() {
    let inside = |cost: &str| mast(&["14 000B 05 000A 0014", "1B 01", cost].concat());
    let both = |cost: &str| (plan(&inside(cost), 11, 10), plan(&inside(cost), 0, 2));
    assert_eq!(both("0000"), (Ok((15, vec![1, 0, 0])), Ok((12, vec![0, 2, 1]))));
    assert_eq!(both("0004"), (Ok((19, vec![1, 0, 0])), Ok((16, vec![0, 2, 1]))));
    assert_eq!(both("0006"), (Ok((20, vec![5])), Ok((18, vec![0, 2, 1]))));
    assert_eq!(both("0009"), (Ok((20, vec![5])), Ok((20, vec![2]))));
    assert_eq!(both("FFFF"), (Ok((20, vec![5])), Ok((20, vec![2]))));
}

/// A machine's own leaving is left out of its exit costs, and that of the machines below it counts.
#[test]
fn exit_costs() {
    let one = mast(LEAVE_1);
    assert_eq!(exits(&one, 1), [Ok(0), Ok(4), Ok(4)]);
    assert_eq!(exits(&one, 0), [Ok(5 + 7), Ok(0), Ok(9 + 7)]);
    let two = mast(&[MACHINE_2, LEAVE_1].concat());
    assert_eq!(exits(&two, 2), [Ok(0), Ok(0), Ok(0)]);
    assert_eq!(exits(&two, 1), [Ok(0), Ok(4 + 256), Ok(4 + 256)]);
    assert_eq!(exits(&two, 0), [Ok(5 + 7), Ok(0), Ok(20)]);
}

/// The dearer list is the one that leaves the machine.
#[test]
fn choices() {
    let choose = |more: &str| himm::choose(&mast(more).book, 0, 2, &[0, 2, 1], &[2]).map(|chosen| chosen.part.len());
    assert_eq!((choose(""), choose("1B 01 0008"), choose("1B 01 0009")), (Ok(3), Ok(3), Ok(1)));
}

/// A walker's command costs what the step costs.
#[test]
fn walkers() {
    let holding = mast(LEAVE_1);
    let mut walkers = Walkers::at(1, 1, &[11, 0]);
    assert_eq!(walkers.walk(&holding.book, &holding.view().book, 0, 1), moved(2, 10, 1));
    assert_eq!(walkers.walk(&holding.book, &holding.view().book, 1, 0), moved(10, 5, 0));
}

/// The costs of leaving come last, behind the holds, by machine and where they are not 0; Load takes them back.
#[test]
fn written_bytes() {
    let holding = mast("1B 01 0102 12 0002 3F 001E 1B 3F 0001 1A 000B 01 1B 01 FF03");
    let refined = MAST.replace("11 01 000B", "12 0002 3F 001E 11 01 000B");
    let stream = hex(&[&refined, "1A 000B 01 1B 01 FF03 1B 3F 0001"].concat());
    let mut out = vec![0; stream.len()];
    assert_eq!(himm::write(&holding.book, &mut out), Ok(&stream[..]));
    assert_eq!(himm::write(&holding.book, &mut out[1..]), Err(Refusal::BufferTooShort));
    holding.compare_round_trip(&mut mast(LEAVE_1));
    assert_eq!(left_in(&holding.book), [(1, 0xFF03), (63, 1)]);
}

/// What goes loses its cost of leaving, by remove and begin; all else keeps its own, and a new machine has none. Crown leaves the old root
/// without one, which may then get one.
#[test]
fn costs_that_go_and_stay() {
    let after = |more: &str| {
        let mut holding = mast(&[MACHINE_2, LEAVE_1].concat());
        assert_eq!(holding.load(&hex(more)).number, 0, "{more}");
        left_in(&holding.book)
    };
    let both = [(1, 7), (2, 256)];
    for kept in ["", "11 01 0015", "12 0002 03 001E", "13 0002", "14 0014 05 0014 0009", "15 0001 01", "16 000B", "1A 000B 01"] {
        assert_eq!((after(kept), after(&[kept, "17 09 0063"].concat())), (both.to_vec(), both.to_vec()), "{kept}");
    }
    assert_eq!((after("13 000B"), after("13 000B 11 01 000B 12 000B 02 0014")), (vec![(1, 7)], vec![(1, 7)]));
    assert_eq!((after("13 0001"), after("13 0001 11 00 0001 12 0001 02 000A 12 000A 01 000B")), (vec![], vec![]));
    assert_eq!((after("10 00 0000"), after("10 01 0001 12 0001 02 0002")), (vec![], vec![]));
    assert_eq!((after("1B 01 0000"), after("1B 02 0000 1B 01 FFFF")), (vec![(2, 256)], vec![(1, 65535)]));
    assert_eq!((after("17 09 0063 1B 00 0005"), after("17 09 0063 1B 00 0005 17 0A 0064")), (crowned(), crowned()));
}

/// The costs of leaving with one for the old root.
fn crowned() -> Vec<(usize, u32)> {
    vec![(0, 5), (1, 7), (2, 256)]
}

// Refusals and marks.

/// 5, 4, 6 and 7 in this order, whichever of the later ones hold too. The root is 6 whatever the cost, and not 7.
#[test]
fn refusals_in_their_order() {
    assert_eq!((answer("1C 01 0001"), answer("19 01 0001")), ((0, 0, 5), (0, 0, 5)));
    for cut in ["1B", "1B 01", "1B 01 00", "1B 40 00", "1B 00 00", "1B 02 00"] {
        assert_eq!(answer(cut), (0, 0, 4), "{cut}");
    }
    for range in ["1B 40 0001", "1B 40 0000", "1B FF FFFF", "1B 00 0001", "1B 00 0000", "1B 00 FFFF"] {
        assert_eq!(answer(range), (0, 0, 6), "{range}");
    }
    for unused in ["1B 02 0001", "1B 02 0000", "1B 3F FFFF"] {
        assert_eq!(answer(unused), (0, 0, 7), "{unused}");
    }
    assert_eq!((answer("1B 01 0005 13 0001 1B 01 0005"), answer("13 0001 1B 01 0000")), ((7, 2, 7), (3, 1, 7)));
    assert_eq!((answer("17 09 0063 1B 09 0000"), answer("17 09 0063 1B 00 0001")), ((4, 1, 6), (8, 2, 0)));
    assert_eq!((answer("10 05 0003 1B 05 0001"), answer("10 05 0003 1B 00 0001")), ((4, 1, 6), (4, 1, 7)));
    assert_eq!(answer("1B 01 FFFF 1B 01 0000 1B 01 0000"), (12, 3, 0));
}

/// In a chain of eight levels a cost of leaving marks its machine and those above it, and no other, also where it changes nothing.
#[test]
fn marks() {
    let good = chain_of_pairs();
    for level in 1..LEVELS {
        for (before, now) in [(0, 9), (9, 9), (9, 0), (0, 0)] {
            let mut holding = good.clone();
            assert_eq!(holding.load(&[leave(level, before), vec![himm::REFRESH], leave(level, now)].concat()).number, 0);
            let stale: Vec<usize> = (0..MACHINES).filter(|&m| is_stale(&holding.sheet, m)).collect();
            assert_eq!(stale, (0..=level).collect::<Vec<_>>(), "leave {level} at {now} after {before}");
        }
    }
}

// Torn words.

/// Each cost of leaving of the mast book as another word: over 65,535 it is torn, and so is one of the root or of a machine that is not in
/// use.
#[test]
fn torn_costs() {
    let (good, left) = (mast(""), mast(LEAVE_1));
    for holding in [&good, &left] {
        for m in 0..MACHINES {
            let mut torn = holding.clone();
            for word in [65536, 65537, 0x10007, 0x8000_0000, u32::MAX] {
                torn.book[leave_at(m)] = word;
                refused_by_each_call(&torn, &good.book);
            }
            for word in [1, 7, 65535] {
                torn.book[leave_at(m)] = word;
                if m != 1 {
                    refused_by_each_call(&torn, &good.book);
                }
            }
        }
    }
}

/// A cost of leaving that is put into the words of a book, or taken out, without a mark: the book is good, and its sheet is false where it
/// matters.
#[test]
fn costs_without_marks() {
    for (more, word) in [("", 1), ("", 65535), (LEAVE_1, 0), (LEAVE_1, 8)] {
        let mut holding = mast(more);
        holding.book[leave_at(1)] = word;
        assert_eq!(holding.view().whole.err(), Some(3));
        each_call(&holding, &holding.view());
        assert_eq!(himm::step(&holding.book, 11, 1), moved(2, 3 + word, 1));
    }
}

/// A book of the length that it had before costs of leaving: 1 by each call. With zeros put at its end it is the book again, and its sheet
/// is true of it.
#[test]
fn a_book_without_costs() {
    let good = mast("1A 000B 01");
    let mut short = good.clone();
    short.book.truncate(leave_at(0));
    assert_eq!((short.book.len(), short.view().book.err()), (4993, Some(1)));
    each_call(&short, &short.view());
    assert_eq!((Holding::untouched().merge(&short.book, &good.book), Holding::untouched().merge(&good.book, &short.book)), (1, 1));
    short.book.resize(himm::BOOK_WORDS, 0);
    assert!(short == good && short.view().whole.is_ok());
}

// The largest costs.

/// A root of nine nodes, each with a chain of seven machines of one node below it, on eight levels: chain c has the machines 7c + 1 to 7c +
/// 7 and the nodes 7c + 9 to 7c + 15. Command 0 leads from each node of the root to the next, command 1 from each to itself. Every
/// transition and every leaving has the largest cost.
fn nine_chains() -> Holding {
    let mut all: Vec<Command> = (1..9).map(|node| Command::Add { machine: 0, node }).collect();
    for k in 0..63 {
        let node = if k % 7 == 0 { k / 7 } else { k + 8 };
        all.push(Command::Refine { node, machine: k + 1, start: k + 9 });
        all.push(Command::Leave { machine: k + 1, cost: LARGEST });
    }
    all.extend((0..8).map(|node| Command::Arrow { node, command: 0, target: node + 1, cost: LARGEST }));
    all.extend((0..9).map(|node| Command::Arrow { node, command: 1, target: node, cost: LARGEST }));
    Holding::loaded(&bytes(&all))
}

/// From the lowest state of each chain a command leaves seven machines.
#[test]
fn the_dearest_steps() {
    let holding = nine_chains();
    holding.compare_all_pairs();
    holding.compare_round_trip(&mut Holding::ladder());
    assert_eq!((himm::step(&holding.book, 15, 0), himm::step(&holding.book, 15, 1)), (moved(22, 524_280, 0), moved(15, 524_280, 0)));
    assert_eq!(plan(&holding, 15, 71), Ok((8 * 524_280, vec![0; 8])));
    let exit = |machine: u32, command: u32| himm::exit(&holding.book, &holding.sheet, machine, command);
    assert_eq!((exit(0, 0), exit(0, 2), exit(0, 1)), (Ok(8 * 524_280 + 7 * 65_535), Ok(7 * 65_535), Err(Refusal::NoWay)));
    assert_eq!((1..8).map(|machine| exit(machine, 0)).collect::<Vec<_>>(), [6, 5, 4, 3, 2, 1, 0].map(|below| Ok(below * 65_535)));
}

/// The dearest plan that there is, 262 times the largest cost. A plan passes no state twice, so it enters no machine twice: it leaves the
/// machines where it begins twice at most, seven of them, and every other once; and each of these is held by a node that is no state. Here
/// it begins at node 8, beside the start 7 of the lowest machine below node 0, where node 8 itself catches command 1; leaves seven machines
/// for node 9 of the root, goes on to node 131 and into node 0, and by command 1 leaves them again for node 132.
#[test]
fn the_dearest_plan() {
    let mut all: Vec<Command> = (0..7).map(|k| Command::Refine { node: k, machine: k + 1, start: k + 1 }).collect();
    all.extend((1..LEVELS).map(|machine| Command::Leave { machine, cost: LARGEST }));
    all.extend((8..256).map(|node| Command::Add { machine: if node == 8 { 7 } else { 0 }, node }));
    let arrow = |node: usize, command: usize, target: usize| Command::Arrow { node, command, target, cost: LARGEST };
    all.extend([arrow(8, 1, 8), arrow(0, 0, 9), arrow(0, 1, 132), arrow(131, 0, 0)]);
    all.extend((9..255).filter(|&node| node != 131).map(|node| arrow(node, 0, node + 1)));
    let holding = Holding::loaded(&bytes(&all));
    let commands = [vec![0; 124], vec![1], vec![0; 123]].concat();
    assert_eq!(plan(&holding, 8, 255), Ok((262 * 65_535, commands)));
    holding.compare_plan(&holding.view(), 8, 255, himm::PLAN_BYTES);
}

/// Lists whose costs 32 bits do not hold: the one that costs less is chosen, though its cost less 2^32 is more, or both are over.
#[test]
fn choices_over_32_bits() {
    let (holding, lists) = (nine_chains(), |stays: usize| [vec![1; stays], vec![0]].concat());
    let chosen = |first: usize, second: usize| {
        let (one, two) = (lists(first), lists(second));
        holding.compare_choice(&holding.view(), 15, 22, &one, &two);
        himm::choose(&holding.book, 15, 22, &one, &two).map(|chosen| (chosen.which == himm::Which::First, chosen.part.len()))
    };
    assert_eq!((chosen(8_200, 8_190), chosen(8_190, 8_200)), (Ok((false, 8_191)), Ok((true, 8_191))));
    assert_eq!((chosen(20_000, 10_000), chosen(10_000, 20_000)), (Ok((false, 10_001)), Ok((true, 10_001))));
    assert_eq!((chosen(65_535, 65_534), chosen(65_536, 65_535)), (Ok((false, 65_535)), Ok((false, 65_536))));
    assert_eq!((chosen(65_535, 65_535), chosen(65_536, 65_536)), (Ok((true, 65_536)), Err(Refusal::NeitherArrives)));
}

// Exit costs by every short list.

/// What every list of commands comes to that stays in a machine or below it, and then leaves it.
struct Lists<'a> {
    book: &'a [u32],
    machine: usize,
    commands: u32,
    least: [Option<u32>; COMMANDS],
}

impl Lists<'_> {
    /// All of them with at most so many commands before the last, from a state that was come to at a cost.
    fn follow(&mut self, state: u32, so_far: u32, longest: usize) {
        let nodes = upward(self.book, state);
        let top = nodes.iter().position(|&n| machine_of(self.book, n) == self.machine).expect("a state below the machine");
        for x in 0..self.commands {
            match himm::step(self.book, state, x) {
                Ok(to) if nodes[..=top].contains(&to.node) => {
                    if longest > 0 {
                        self.follow(to.state, so_far + to.cost, longest - 1);
                    }
                }
                _ => {
                    let (cost, least) = (so_far + leaving(self.book, &nodes[..top]), &mut self.least[x as usize]);
                    *least = Some(least.map_or(cost, |known| known.min(cost)));
                }
            }
        }
    }
}

/// Each exit cost is the least of these, where the lists are long enough to pass every state; one command has no transitions.
#[test]
fn exit_costs_by_every_short_list() {
    let (mut ways, mut none) = (0, 0);
    for seed in 0..500 {
        let mut random = Random::new(91_000 + seed);
        let (machines, costs) = (2 + random.below(3), random.pick(&[Costs::Few, Costs::Any]));
        let shape = Shape { machines, nodes: machines + 5, commands: 2, costs, leaves: 100, ..Shape::random(&mut random) };
        let holding = Holding::random(&mut random, &shape);
        let tree = holding.tree();
        for machine in tree.machines_in_use() {
            let mut lists = Lists { book: &holding.book, machine, commands: 3, least: [None; COMMANDS] };
            lists.follow(tree.enter(tree.machine(machine).start) as u32, 0, tree.states().len() - 1);
            for x in 0..3 {
                let exit = himm::exit(&holding.book, &holding.sheet, machine as u32, x);
                assert_eq!(exit, lists.least[x as usize].ok_or(Refusal::NoWay), "exit {machine} {x} of seed {seed}");
                *if exit.is_ok() { &mut ways } else { &mut none } += 1;
            }
        }
    }
    assert!(ways > 1_000 && none > 200, "{ways} exits, {none} without a way");
}

// Random books.

/// The tree with every machine free to leave.
fn free_to_leave(tree: &Tree) -> Tree {
    let mut tree = tree.clone();
    tree.machines.iter_mut().flatten().for_each(|machine| machine.leave = 0);
    tree
}

/// Plans between every pair of states of some books, and every exit and step. Gives how many machines of each level cost something to
/// leave, and for how many pairs the least cost is another one by that; no way is lost by it.
fn compare_all(books: impl Iterator<Item = Holding>) -> ([usize; LEVELS], usize) {
    let (mut levels, mut sum) = ([0; LEVELS], 0);
    for holding in books {
        holding.compare_all_pairs();
        let tree = holding.tree();
        tree.machines_with_leave().into_iter().filter_map(|m| tree.level(m)).for_each(|level| levels[level - 1] += 1);
        let [changed, no_way] = changed_pairs(&tree, &free_to_leave(&tree));
        assert_eq!(no_way, 0);
        sum += changed;
    }
    (levels, sum)
}

/// A random book with costs of leaving and few nodes.
fn small(random: &mut Random) -> Holding {
    let shape = Shape { nodes: 14, machines: 2 + random.below(6), leaves: random.pick(&[40, 100]), ..Shape::random(random) };
    Holding::random(random, &shape)
}

#[test]
fn small_books_between_all_pairs() {
    let (levels, changed) = compare_all((0..150).map(|seed| small(&mut Random::new(92_000 + seed))));
    assert!(levels[1..4].iter().all(|&count| count > 20) && changed > 500, "{levels:?}, {changed} pairs");
}

/// Chains of eight levels, where every machine but the root costs something to leave.
#[test]
fn chains_of_eight_levels_between_all_pairs() {
    let chain = |seed: u64| {
        let mut random = Random::new(93_000 + seed);
        let (filled, costs) = (random.pick(&[5, 12, 30]), random.pick(&[Costs::Few, Costs::Any, Costs::Largest]));
        let shape = Shape { growth: Growth::EvenChain, machines: LEVELS, nodes: 56, filled, costs, holds: 5, leaves: 100, ..Shape::full() };
        Holding::random(&mut random, &shape)
    };
    let (levels, changed) = compare_all((0..15).map(chain));
    assert!(levels[0] == 0 && levels[1..].iter().all(|&count| count >= 8) && changed > 5_000, "{levels:?}, {changed} pairs");
}

#[test]
fn full_books_between_all_pairs() {
    let full = |costs: Costs| Holding::random(&mut Random::new(94_000), &Shape { filled: 30, costs, leaves: 100, ..Shape::full() });
    let (levels, changed) = compare_all([Costs::Any, Costs::Largest].into_iter().map(full));
    assert!(levels.iter().sum::<usize>() > 100 && changed > 5_000, "{levels:?}, {changed} pairs");
}

/// The stream of a book with costs of leaving, loaded into fresh and ladder holdings, into its own and into that of the book before it.
#[test]
fn round_trips() {
    let mut last = Holding::fresh();
    for seed in 0..100 {
        let mut random = Random::new(95_000 + seed);
        let shape = Shape { leaves: random.pick(&[20, 100]), ..Shape::random(&mut random) };
        let holding = Holding::random(&mut random, &shape);
        for mut other in [Holding::fresh(), Holding::ladder(), holding.clone(), last] {
            holding.compare_round_trip(&mut other);
        }
        let mut out = vec![0; himm::STREAM_BYTES];
        let stream = himm::write(&holding.book, &mut out).expect("a well-formed book");
        assert!(stream.ends_with(&last_commands(&holding.book)));
        last = holding;
    }
}

/// Sheets that count what leaving costs where it costs nothing, or do not where it does.
#[test]
fn sheets_of_other_costs() {
    let mut answers = vec![];
    for seed in 0..100 {
        let left = small(&mut Random::new(96_000 + seed));
        let tree = free_to_leave(&left.tree());
        let free = Holding { book: encode(&tree), sheet: filled(&tree, &mut |_| 0) };
        for (book, sheet) in [(&left.book, &free.sheet), (&free.book, &left.sheet)] {
            let mixed = Holding { book: book.clone(), sheet: sheet.clone() };
            let view = mixed.view();
            mixed.compare_exits(&view);
            mixed.compare_plans(&view, &states(&tree));
            mixed.clone().load(&[himm::REFRESH]);
            answers.push(view.whole.err().unwrap_or(0));
        }
    }
    let [truths, lies] = counts(&answers, [0, 3]);
    assert!(truths > 10 && lies > 50, "{truths} truths, {lies} lies");
}

// Merges.

/// The mast book merged with itself: the twin's machine 1 is machine 3. The new root 4 and the old roots 0 and 2 cost nothing to leave.
#[test]
fn two_masts() {
    let (left, free, mut third) = (mast(LEAVE_1).book, mast("").book, Holding::untouched());
    let all = [(&left, &left, &[(1, 7), (3, 7)][..]), (&left, &free, &[(1, 7)]), (&free, &left, &[(3, 7)]), (&free, &free, &[])];
    for (first, second, costs) in all {
        assert_eq!(third.merge(first, second), 0);
        assert_eq!(left_in(&third.book), costs);
    }
    assert_eq!(third.merge(&left, &left), 0);
    assert_eq!(third.load(&hex("1B 04 0001")).number, 6);
    assert_eq!(third.load(&[himm::REFRESH]).number, 0);
    assert_eq!((plan(&third, 0, 2), plan(&third, 3, 5)), (Ok((19, vec![0, 2, 1])), Ok((19, vec![0, 2, 1]))));
    assert_eq!((himm::step(&third.book, 11, 1), himm::step(&third.book, 7, 1)), (moved(2, 10, 1), moved(5, 10, 4)));
    assert_eq!((exits(&third, 3), exits(&third, 2)), ([Ok(0), Ok(4), Ok(4)], [Ok(12), Ok(0), Ok(16)]));
    assert_eq!(third.load(&hex("1B 00 0001 1B 02 0002")).number, 0);
    assert_eq!(left_in(&third.book), [(0, 1), (1, 7), (2, 2), (3, 7)]);
}
