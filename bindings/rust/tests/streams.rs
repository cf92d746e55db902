//! Long lists of loads, refused commands included, each compared with the expected station.

mod common;

use common::season::season;
use common::Holding;
use himm_model::random::{Random, Shape};
use himm_model::stream::Command;

#[test]
fn from_fresh() {
    for seed in 0..60 {
        season(20_000 + seed, Holding::fresh(), 40);
    }
}

#[test]
fn from_the_ladder() {
    for seed in 0..15 {
        let mut random = Random::new(21_000 + seed);
        let mut ladder = Holding::ladder();
        if random.chance(50) {
            ladder.load(&[himm::REFRESH]);
        }
        season(22_000 + seed, ladder, 25);
    }
}

#[test]
fn from_random_books() {
    for seed in 0..40 {
        let mut random = Random::new(23_000 + seed);
        let shape = Shape::random(&mut random);
        season(24_000 + seed, Holding::random(&mut random, &shape), 25);
    }
}

/// Every opcode cut at every length, and every unknown opcode.
#[test]
fn cut_and_unknown() {
    let mut holding = Holding::loaded(&[0x11, 0, 0, 1]);
    for opcode in 0..=255 {
        for length in 0..8 {
            let mut stream = vec![0x18, opcode];
            stream.extend(vec![0; length]);
            holding.clone().load(&stream);
            holding.load(&stream[..1]);
        }
    }
}

/// Each command with every operand at the edges of its range.
#[test]
fn operands_at_the_edges() {
    let mut random = Random::new(25_000);
    let shape = Shape { machines: 6, nodes: 20, holds: 20, leaves: 50, ..Shape::full() };
    let holding = Holding::random(&mut random, &shape);
    let nodes: Vec<usize> = [0, 255, 256, 65535].into_iter().chain(holding.tree().states().into_iter().take(2)).collect();
    for &node in &nodes {
        [0, 1, 2, 255].into_iter().for_each(|hold| load_and_refresh(&holding, Command::Hold { node, hold }));
        for machine in [0, 63, 64, 255].into_iter().chain(holding.tree().machines_in_use().into_iter().take(2)) {
            for &other in &nodes {
                for command in [0, 15, 16, 255] {
                    edge_cases(&holding, node, machine, other, command);
                }
            }
        }
    }
}

fn edge_cases(holding: &Holding, node: usize, machine: usize, other: usize, command: usize) {
    let all = [
        Command::Begin { machine, start: node },
        Command::Add { machine, node },
        Command::Refine { node, machine, start: other },
        Command::Remove { node },
        Command::Arrow { node, command, target: other, cost: 65535 },
        Command::Clear { node, command },
        Command::Start { node },
        Command::Crown { machine, node },
        Command::Leave { machine, cost: other },
    ];
    all.into_iter().for_each(|edit| load_and_refresh(holding, edit));
}

/// Does an edit and a refresh to a copy of a holding.
fn load_and_refresh(holding: &Holding, edit: Command) {
    holding.clone().load(&[edit.bytes(), vec![himm::REFRESH]].concat());
}
