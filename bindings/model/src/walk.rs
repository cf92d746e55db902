//! Walkers, each at a state of one tree, and how many of them are inside a node: document 02, W-206. A walker's record is its state.

use crate::tree::Tree;
use std::iter::successors;

/// Whether a state is inside a node, at it or below it: the node is met on the way up from the state to the root.
pub fn is_inside(tree: &Tree, node: usize, state: usize) -> bool {
    successors(Some(state), |&n| tree.up(n)).any(|n| n == node)
}

/// How many walkers are inside a node.
pub fn inside(tree: &Tree, node: usize, walkers: &[u32]) -> usize {
    walkers.iter().filter(|&&state| is_inside(tree, node, state as usize)).count()
}

/// Whether a walker that goes from one state to another comes from outside a node to inside.
pub fn comes_inside(tree: &Tree, node: usize, from: usize, to: usize) -> bool {
    !is_inside(tree, node, from) && is_inside(tree, node, to)
}
