//! Lists of loads of random edits, refused commands included, each compared with the expected station.

use super::{nodes_to_try, Holding};
use himm_model::random::{edit, Random};
use himm_model::stream::Station;
use himm_model::tree::Tree;

/// Some edits of a growing tree as one stream; commands that are refused stay in.
fn edits(random: &mut Random, tree: &Tree, count: usize) -> Vec<u8> {
    let mut station = Station::stale(tree.clone());
    let mut stream = vec![];
    for _ in 0..count {
        let command = edit(random, &station.tree);
        let refused = command.refusal(&station.tree) != 0;
        if !refused {
            station.apply(&command);
        }
        if !refused || random.chance(10) {
            stream.extend(command.bytes());
        }
    }
    stream
}

/// Damage that a stream may have: cut, a byte changed, a byte put in.
fn damage(random: &mut Random, stream: &mut Vec<u8>) {
    let at = random.below(stream.len() + 1);
    match random.below(12) {
        0 => stream.truncate(at),
        1 => stream.insert(at, random.below(256) as u8),
        2 if at < stream.len() => stream[at] = random.below(256) as u8,
        _ => (),
    }
}

/// One list of loads with checks of all calls on the way and at the end.
pub fn season(seed: u64, mut holding: Holding, loads: usize) {
    let mut random = Random::new(seed);
    for _ in 0..loads {
        let count = random.pick(&[0, 1, 2, 5, 20]);
        let mut stream = edits(&mut random, &holding.tree(), count);
        damage(&mut random, &mut stream);
        holding.load(&stream);
        if random.chance(10) {
            holding.compare_exits(&holding.view());
        }
    }
    holding.load(&[himm::REFRESH]);
    let view = holding.view();
    let nodes = nodes_to_try(&holding.tree(), &mut random, 15);
    holding.compare_plans(&view, &nodes);
    holding.compare_exits(&view);
    holding.compare_write(&view);
    holding.compare_round_trip(&mut Holding::fresh());
}
