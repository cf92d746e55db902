//! Choosing the cheaper of two lists.

use crate::tree::Tree;
use crate::{COMMANDS, LIST_COMMANDS};

/// How many commands a list uses up to its first arrival, and their cost; `None` where it does not arrive.
pub fn used(tree: &Tree, from: usize, to: usize, list: &[u8]) -> Option<(usize, u64)> {
    let (mut state, mut cost) = (from, 0);
    for (count, &byte) in list.iter().take(LIST_COMMANDS).enumerate() {
        if state == to {
            return Some((count, cost));
        }
        if byte as usize >= COMMANDS {
            return None;
        }
        let moved = tree.step(state, byte as usize)?;
        state = moved.state;
        cost += moved.cost as u64;
    }
    (state == to).then_some((list.len().min(LIST_COMMANDS), cost))
}

/// Which list is chosen, 0 or 1, and how many of its commands are used; `None` where neither arrives.
pub fn choose(tree: &Tree, from: usize, to: usize, first: &[u8], second: &[u8]) -> Option<(u32, usize)> {
    match (used(tree, from, to, first), used(tree, from, to, second)) {
        (Some((_, a)), Some((n, b))) if b < a => Some((1, n)),
        (Some((n, _)), _) => Some((0, n)),
        (None, Some((n, _))) => Some((1, n)),
        (None, None) => None,
    }
}
