//! The node that Step names, judged by the words of the book alone, and the words that a refused step leaves.

mod common;

use common::words::{entered, leaving, transition, upward};
use common::{hex, Holding, MAST, UNTOUCHED_STEP};
use himm_model::random::{Costs, Growth, Random, Shape};
use himm_model::{BLANK, COMMANDS, LEVELS};

/// The refusal of a step where no node has a transition that counts.
const STOPS: u32 = 17;

/// Judges one step: the node is the state or holds it, the step is that of the node's transition, with what leaving the machines of the
/// nodes below it costs, and none of those nodes has a transition. Gives how many nodes are below it; `None` where the station stops, and
/// then no node has a transition. A shut one counts as none.
fn judge(holding: &Holding, state: u32, command: u32) -> Option<usize> {
    let (book, nodes) = (&holding.book, upward(&holding.book, state));
    let none_of = |some: &[u32]| some.iter().all(|&node| transition(book, node, command) == BLANK);
    let (number, [next, cost, node]) = holding.step(state, command);
    if number == STOPS {
        assert!(none_of(&nodes), "a stop at {state} by {command}, though a node has a transition");
        return None;
    }
    assert_eq!(number, 0, "step {state} {command}");
    let below = nodes.iter().position(|&n| n == node).expect("the state or a node that holds it");
    assert!(none_of(&nodes[..below]), "node {node} acts at {state} by {command}, though a lower one has a transition");
    let word = transition(book, node, command);
    assert_ne!(word, BLANK, "node {node} acts at {state} by {command} without a transition");
    let expected = (entered(book, word / 65536), word % 65536 + leaving(book, &nodes[..below]));
    assert_eq!((next, cost), expected, "another step than that of node {node}");
    Some(below)
}

/// Every state and command of a book: counts the steps by how many nodes are below the one that acts, and the stops last.
fn judge_all(holding: &Holding, counts: &mut [usize; LEVELS + 1]) {
    for state in holding.tree().states() {
        for command in 0..COMMANDS {
            counts[judge(holding, state as u32, command as u32).unwrap_or(LEVELS)] += 1;
        }
    }
}

#[test]
fn the_ladder() {
    let mut counts = [0; LEVELS + 1];
    judge_all(&Holding::ladder(), &mut counts);
    assert!(counts[..6].iter().all(|&count| count > 0) && counts[6..8] == [0, 0], "{counts:?}");
}

#[test]
fn random_books() {
    let mut counts = [0; LEVELS + 1];
    for seed in 0..300 {
        let mut random = Random::new(51_000 + seed);
        let shape = Shape::random(&mut random);
        judge_all(&Holding::random(&mut random, &shape), &mut counts);
    }
    assert!(counts.iter().all(|&count| count > 0), "{counts:?}");
}

/// Chains with few transitions, where a command often climbs all eight levels.
#[test]
fn chains_of_eight_levels() {
    let mut counts = [0; LEVELS + 1];
    for seed in 0..20 {
        let mut random = Random::new(52_000 + seed);
        let (filled, loops) = (random.pick(&[5, 12, 25]), random.pick(&[0, 40]));
        let costs = random.pick(&[Costs::Zero, Costs::Any, Costs::Largest]);
        let (holds, leaves) = (random.pick(&[0, 20, 50]), random.pick(&[0, 50, 100]));
        let shape = Shape { growth: Growth::EvenChain, machines: LEVELS, nodes: 64, filled, loops, costs, holds, leaves, ..Shape::full() };
        judge_all(&Holding::random(&mut random, &shape), &mut counts);
    }
    assert!(counts.iter().all(|&count| count > 50), "{counts:?}");
}

#[test]
fn full_books() {
    let mut counts = [0; LEVELS + 1];
    for (filled, holds, leaves) in [(20, 0, 100), (60, 0, 0), (60, 30, 50), (100, 0, 100), (100, 60, 100)] {
        let shape = Shape { filled, holds, leaves, ..Shape::full() };
        judge_all(&Holding::random(&mut Random::new(53_000), &shape), &mut counts);
    }
    assert!(counts[0] > 5_000 && counts[1] > 500, "{counts:?}");
}

/// Each refusal, also where a later one holds too: the words for state, cost and node keep what they had.
#[test]
fn refused_steps_write_nothing() {
    let mast = Holding::loaded(&hex(MAST));
    let (mut short, mut torn) = (mast.clone(), mast.clone());
    short.book.pop();
    torn.book[0] = 1;
    let all = [
        (&short, [(11, 1), (256, 16), (255, 0)], 1),
        (&torn, [(11, 1), (256, 16), (255, 0)], 2),
        (&mast, [(256, 1), (11, 16), (255, 16)], 6),
        (&mast, [(255, 0), (3, 1), (12, 15)], 7),
        (&mast, [(1, 0), (1, 1), (1, 15)], 14),
        (&mast, [(11, 0), (10, 0), (0, 1)], 17),
    ];
    for (holding, places, number) in all {
        for (state, command) in places {
            assert_eq!(holding.step(state, command), (number, UNTOUCHED_STEP), "step {state} {command}");
        }
    }
    assert_eq!(mast.step(11, 1), (0, [2, 3, 1]));
}
