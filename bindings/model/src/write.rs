//! The stream of a tree.

use crate::stream::Command;
use crate::tree::Tree;
use crate::{COMMANDS, LEVELS, NODES};

/// Begin; for each level first add, then refine, both by rising node; then all transitions by node, then command; then the holds of 1 by
/// node (document 02, W-205); last what leaving a machine costs, by machine, where it is not 0 (W-207).
pub fn stream(tree: &Tree) -> Vec<u8> {
    let mut all = vec![Command::Begin { machine: tree.root, start: tree.machine(tree.root).start }];
    for level in 1..=LEVELS {
        let nodes: Vec<usize> = (0..NODES).filter(|&n| at_level(tree, n, level)).collect();
        all.extend(nodes.iter().filter(|&&n| !tree.is_start(n)).map(|&n| Command::Add { machine: tree.node(n).owner, node: n }));
        all.extend(nodes.iter().filter_map(|&n| refine(tree, n)));
    }
    all.extend((0..NODES).flat_map(|n| arrows(tree, n)));
    all.extend(tree.nodes_on_hold().into_iter().map(|node| Command::Hold { node, hold: 1 }));
    all.extend(tree.machines_with_leave().into_iter().map(|machine| leave(tree, machine)));
    all.iter().flat_map(Command::bytes).collect()
}

fn at_level(tree: &Tree, n: usize, level: usize) -> bool {
    tree.nodes[n].as_ref().is_some_and(|node| tree.level(node.owner) == Some(level))
}

fn refine(tree: &Tree, node: usize) -> Option<Command> {
    tree.node(node).below.map(|machine| Command::Refine { node, machine, start: tree.machine(machine).start })
}

fn leave(tree: &Tree, machine: usize) -> Command {
    Command::Leave { machine, cost: tree.machine(machine).leave as usize }
}

fn arrows(tree: &Tree, node: usize) -> Vec<Command> {
    let Some(record) = &tree.nodes[node] else { return vec![] };
    (0..COMMANDS)
        .filter_map(|x| record.transitions[x].map(|t| (x, t)))
        .map(|(command, t)| Command::Arrow { node, command, target: t.target, cost: t.cost as usize })
        .collect()
}
