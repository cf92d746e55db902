//! What a book says, read off its words alone.

use himm_model::book::{hold_at, leave_at, machine_at, node_at};
use himm_model::{ABSENT, BLANK};

/// The machine that a node belongs to.
pub fn machine_of(book: &[u32], node: u32) -> usize {
    book[node_at(node as usize)] as usize
}

/// A state and the nodes that hold it, from the state up: a node has its machine's number, and the machine the number of its holder.
pub fn upward(book: &[u32], state: u32) -> Vec<u32> {
    let holder = |&node: &u32| Some(book[machine_at(machine_of(book, node))]).filter(|&word| word != ABSENT);
    std::iter::successors(Some(state), holder).collect()
}

/// The state that entering a node leads to: a refined node has the number of the machine below it, and that the number of its start.
pub fn entered(book: &[u32], node: u32) -> u32 {
    match book[node_at(node as usize) + 1] {
        ABSENT => node,
        machine => entered(book, book[machine_at(machine as usize) + 1]),
    }
}

/// The word of a node's transition for a command; `BLANK` also where it is shut, since its target is held.
pub fn transition(book: &[u32], node: u32, command: u32) -> u32 {
    match book[node_at(node as usize) + 2 + command as usize] {
        BLANK => BLANK,
        word if book[hold_at(word as usize / 65536)] == 1 => BLANK,
        word => word,
    }
}

/// What leaving the machines of some nodes costs.
pub fn leaving(book: &[u32], nodes: &[u32]) -> u32 {
    nodes.iter().map(|&node| book[leave_at(machine_of(book, node))]).sum()
}
