//! Merging two trees below a new root, with their holds and what leaving their machines costs: document 02, W-201, W-205 and W-207.

use crate::tree::{Machine, Node, Transition, Tree};
use std::collections::BTreeMap;

/// The new numbers of the second tree's machines and nodes, and those of the new root, of its start and of its other node.
pub struct Numbers {
    pub machines: BTreeMap<usize, usize>,
    pub nodes: BTreeMap<usize, usize>,
    pub root: usize,
    pub start: usize,
    pub other: usize,
}

impl Numbers {
    /// The lowest numbers that are unused in the first tree, given out in rising order; `None` where there are too few.
    pub fn of(first: &Tree, second: &Tree) -> Option<Numbers> {
        let (mut machines, mut nodes) = (unused(&first.machines), unused(&first.nodes));
        Some(Numbers {
            machines: given(&second.machines, &mut machines)?,
            nodes: given(&second.nodes, &mut nodes)?,
            root: machines.next()?,
            start: nodes.next()?,
            other: nodes.next()?,
        })
    }

    fn machine(&self, old: &Machine) -> Machine {
        Machine { holder: old.holder.map(|n| self.nodes[&n]), start: self.nodes[&old.start], leave: old.leave }
    }

    fn node(&self, old: &Node) -> Node {
        Node {
            owner: self.machines[&old.owner],
            below: old.below.map(|m| self.machines[&m]),
            transitions: old.transitions.map(|t| t.map(|t| Transition { target: self.nodes[&t.target], ..t })),
            on_hold: old.on_hold,
        }
    }
}

/// The numbers that are not in use, rising.
fn unused<T>(all: &[Option<T>]) -> impl Iterator<Item = usize> + '_ {
    (0..all.len()).filter(|&k| all[k].is_none())
}

/// Each number in use, rising, with the next of some new numbers.
fn given<T>(all: &[Option<T>], new: &mut impl Iterator<Item = usize>) -> Option<BTreeMap<usize, usize>> {
    (0..all.len()).filter(|&k| all[k].is_some()).map(|k| Some((k, new.next()?))).collect()
}

/// Both trees below a new root without transitions; `None` where the first has too few unused numbers. Neither may be deep.
pub fn merge(first: &Tree, second: &Tree) -> Option<Tree> {
    let numbers = Numbers::of(first, second)?;
    let mut tree = Tree { root: numbers.root, ..first.clone() };
    for (&old, &new) in &numbers.machines {
        tree.machines[new] = Some(numbers.machine(second.machine(old)));
    }
    for (&old, &new) in &numbers.nodes {
        tree.nodes[new] = Some(numbers.node(second.node(old)));
    }
    tree.machines[tree.root] = Some(Machine::new(None, numbers.start));
    put_over(&mut tree, numbers.start, first.root);
    put_over(&mut tree, numbers.other, numbers.machines[&second.root]);
    Some(tree)
}

/// A new node of the root that holds a machine.
fn put_over(tree: &mut Tree, node: usize, machine: usize) {
    tree.nodes[node] = Some(Node { below: Some(machine), ..Node::plain(tree.root) });
    tree.machine_mut(machine).holder = Some(node);
}
