//! Every call on random books, against the model.

mod common;

use common::walkers::Walkers;
use common::{nodes_to_try, Holding};
use himm_model::flat::Flat;
use himm_model::random::{Costs, Growth, Random, Shape};
use himm_model::tree::Tree;
use himm_model::{book, sheet, COMMANDS, WALKERS};

/// Every call on one holding, plans between at most so many states.
fn compare(holding: &Holding, random: &mut Random, most: usize) {
    let view = holding.view();
    let tree = holding.tree();
    holding.compare_exits(&view);
    holding.compare_steps(&view);
    holding.compare_write(&view);
    let nodes = nodes_to_try(&tree, random, most);
    holding.compare_plans(&view, &nodes);
    let states = tree.states().len();
    for room in [states - 1, states.saturating_sub(2), 0] {
        holding.compare_plan(&view, random.pick(&nodes), random.pick(&nodes), room);
    }
    for _ in 0..20 {
        let (from, to) = (random.pick(&nodes), random.pick(&nodes));
        let (first, second) = (list(random, &tree), list(random, &tree));
        holding.compare_choice(&view, from, to, &first, &second);
        let walkers: Vec<u32> = (0..random.below(WALKERS + 2)).map(|_| random.pick(&nodes)).collect();
        let (limit, walker, command) = (random.below(WALKERS + 2), random.below(WALKERS), random.below(COMMANDS + 1));
        Walkers::at(from, limit as u32, &walkers).both(&holding.book, &view.book, walker as u32, command as u32);
    }
}

/// A random list of commands, mostly in range, short or long.
fn list(random: &mut Random, tree: &Tree) -> Vec<u8> {
    let length = random.pick(&[0, 1, 3, 10, 50, tree.states().len()]);
    let most = random.pick(&[2, 5, 16]);
    (0..length).map(|_| if random.chance(1) { random.below(256) } else { random.below(most) } as u8).collect()
}

#[test]
fn opened() {
    for (holding, tree) in [(Holding::fresh(), Tree::single(0, 0)), (Holding::ladder(), Tree::ladder())] {
        assert!(holding.book == book::encode(&tree));
        assert!(holding.sheet == sheet::stale(&tree));
        let mut random = Random::new(1);
        compare(&holding, &mut random, 10);
        let mut refreshed = holding.clone();
        refreshed.load(&[himm::REFRESH]);
        compare(&refreshed, &mut random, 40);
    }
}

#[test]
fn the_ladder_between_all_pairs() {
    let mut holding = Holding::ladder();
    holding.load(&[himm::REFRESH]);
    let states: Vec<u32> = holding.tree().states().iter().map(|&s| s as u32).collect();
    holding.compare_plans(&holding.view(), &states);
}

#[test]
fn random_books() {
    for seed in 0..300 {
        let mut random = Random::new(1000 + seed);
        let shape = Shape::random(&mut random);
        let holding = Holding::random(&mut random, &shape);
        compare(&holding, &mut random, 12);
        holding.compare_round_trip(&mut Holding::ladder());
    }
}

#[test]
fn small_books_between_all_pairs() {
    for seed in 0..400 {
        let mut random = Random::new(5000 + seed);
        let shape = Shape { nodes: 14, machines: 1 + random.below(6), ..Shape::random(&mut random) };
        let holding = Holding::random(&mut random, &shape);
        let states: Vec<u32> = holding.tree().states().iter().map(|&s| s as u32).collect();
        holding.compare_plans(&holding.view(), &states);
    }
}

#[test]
fn chains_of_eight_levels() {
    for seed in 0..12 {
        let mut random = Random::new(9000 + seed);
        let costs = random.pick(&[Costs::Zero, Costs::Few, Costs::Any, Costs::Largest]);
        let (filled, loops) = (random.pick(&[5, 12, 25]), random.pick(&[0, 40]));
        let (growth, holds, leaves) = (random.pick(&[Growth::Chain, Growth::EvenChain]), random.pick(&[0, 10]), random.pick(&[0, 50, 100]));
        let shape = Shape { growth, machines: 8, nodes: 48 + random.below(200), commands: COMMANDS, filled, loops, costs, holds, leaves };
        compare(&Holding::random(&mut random, &shape), &mut random, 25);
    }
}

#[test]
fn wide_machines() {
    for seed in 0..8 {
        let mut random = Random::new(9500 + seed);
        let (machines, costs) = (random.pick(&[1, 2, 64]), random.pick(&[Costs::Zero, Costs::Few, Costs::Any]));
        let (holds, leaves) = (random.pick(&[0, 10]), random.pick(&[0, 50, 100]));
        let shape = Shape { growth: Growth::Wide, machines, nodes: 256, commands: 2, filled: 70, loops: 10, costs, holds, leaves };
        compare(&Holding::random(&mut random, &shape), &mut random, 25);
    }
}

#[test]
fn full_books() {
    for seed in 0..3 {
        let mut random = Random::new(9900 + seed);
        let holding = Holding::random(&mut random, &Shape { leaves: 50 * seed as usize, ..Shape::full() });
        compare(&holding, &mut random, 25);
        let mut other = Holding::ladder();
        other.load(&[himm::REFRESH]);
        holding.compare_round_trip(&mut other);
        holding.compare_round_trip(&mut holding.clone());
    }
}

/// The longest stream: every machine, node, command and transition, and every hold and cost of leaving that may be. Each machine less gives
/// its start a hold, 4 bytes, takes the cost of leaving away, 4 bytes, and adds where a node was refined, which is 2 less. Without costs of
/// leaving the longest has one machine, and without holds either every machine again.
#[test]
fn the_longest_stream() {
    let length = |shape: Shape| {
        let holding = Holding::random(&mut Random::new(1), &shape);
        holding.compare_write(&holding.view());
        himm::write(&holding.book, &mut vec![0; himm::STREAM_BYTES]).map(|stream| stream.len())
    };
    assert_eq!(length(Shape::longest()), Ok(himm::STREAM_BYTES));
    for machines in [1, 2, 3, 8, 63, 64] {
        let shape = Shape { machines, ..Shape::longest() };
        assert_eq!(length(shape), Ok(himm::STREAM_BYTES + 2 * machines - 128), "{machines} machines");
        assert_eq!(length(Shape { leaves: 0, ..shape }), Ok(34_814 - 2 * machines), "{machines} machines");
    }
    assert_eq!(length(Shape::full()), Ok(33_918));
}

/// The longest plan, and the dearest where no machine is left: one machine of 256 nodes in a row, each transition at the largest cost.
#[test]
fn the_longest_plan() {
    let row: Vec<u8> = (1..=255).flat_map(|n| [0x11, 0, 0, n]).collect();
    let arrows: Vec<u8> = (0..255).flat_map(|n| [0x14, 0, n, 3, 0, n + 1, 255, 255]).collect();
    let holding = Holding::loaded(&[row, arrows].concat());
    let mut buffer = [0; himm::PLAN_BYTES];
    let plan = himm::plan(&holding.book, &holding.sheet, 0, 255, &mut buffer).expect("a way");
    assert_eq!((plan.cost, plan.commands), (16_711_425, &[3; 255][..]));
}

/// Sheets that name other, equally cheap ways are true too, and plans over them are as good.
#[test]
fn other_true_sheets() {
    for seed in 0..100 {
        let mut random = Random::new(7000 + seed);
        let shape = Shape { costs: random.pick(&[Costs::Zero, Costs::Few]), ..Shape::random(&mut random) };
        let mut holding = Holding::random(&mut random, &shape);
        holding.sheet = sheet::filled(&holding.tree(), &mut |count| random.below(count));
        let view = holding.view();
        assert!(view.whole.is_ok());
        let nodes = nodes_to_try(&holding.tree(), &mut random, 12);
        holding.compare_plans(&view, &nodes);
        holding.compare_exits(&view);
        holding.load(&[himm::REFRESH]);
    }
}

/// The flat search that plans are compared with moves as the tree does, flattened in either way.
#[test]
fn flat_moves() {
    for seed in 0..100 {
        let mut random = Random::new(3000 + seed);
        let shape = Shape::random(&mut random);
        let holding = Holding::random(&mut random, &shape);
        let (tree, flat, slow) = (holding.tree(), Flat::of(&holding.book), Flat::step_by_step(&holding.book));
        for s in tree.states() {
            for x in 0..COMMANDS {
                let moved = tree.step(s, x).map(|to| (to.state, to.cost));
                assert_eq!((flat.step(s, x), slow.step(s, x)), (moved, moved));
            }
        }
    }
}

/// Lists as long as Choose looks at, and longer: an arrival by the last command that counts, and by the one after it.
#[test]
fn long_lists() {
    let two_nodes = [0x11, 0, 0, 1, 0x14, 0, 0, 0, 0, 0, 255, 255, 0x14, 0, 0, 1, 0, 1, 255, 255];
    let holding = Holding::loaded(&two_nodes);
    let view = holding.view();
    for around in [himm::LIST_COMMANDS - 2, himm::LIST_COMMANDS - 1, himm::LIST_COMMANDS] {
        let mut long = vec![0; around];
        long.push(1);
        let mut longer = long.clone();
        longer.extend([1; 500]);
        for (first, second) in [(&long[..], &longer[..]), (&longer, &long), (&long, &[0, 1]), (&[1], &longer), (&[16], &long)] {
            holding.compare_choice(&view, 0, 1, first, second);
        }
    }
}

/// Eight levels of refined start nodes, planned through in a thread with as much stack as the header asks for.
#[test]
fn a_small_stack() {
    let chain: Vec<u8> = (0..7).flat_map(|k| [0x12, 0, k, k + 1, 0, k + 1]).collect();
    let through = [0x11, 0, 0, 20, 0x11, 0, 0, 30, 0x14, 0, 30, 0, 0, 0, 0, 1, 0x14, 0, 0, 1, 0, 20, 0, 1, himm::REFRESH];
    let calls = move || {
        let mut holding = Holding::fresh();
        himm::load(&mut holding.book, &mut holding.sheet, &[&chain[..], &through].concat()).result?;
        himm::plan(&holding.book, &holding.sheet, 30, 20, &mut vec![0; himm::PLAN_BYTES]).map(|plan| plan.commands.to_vec())
    };
    let thread = std::thread::Builder::new().stack_size(128 * 1024).spawn(calls).expect("a thread");
    assert_eq!(thread.join().expect("an end"), Ok(vec![0, 1]));
}
