//! The words of a book, and when they are well formed.

use crate::tree::{Machine, Node, Transition, Tree};
use crate::{ABSENT, BLANK, BOOK_WORDS, COMMANDS, MACHINES, NODES};

pub fn machine_at(m: usize) -> usize {
    1 + 2 * m
}

pub fn node_at(n: usize) -> usize {
    129 + 18 * n
}

pub fn hold_at(n: usize) -> usize {
    4737 + n
}

pub fn leave_at(m: usize) -> usize {
    4993 + m
}

pub fn encode(tree: &Tree) -> Vec<u32> {
    let number = |n: Option<usize>| n.map_or(ABSENT, |n| n as u32);
    let mut words = vec![tree.root as u32];
    for machine in &tree.machines {
        words.push(number(machine.as_ref().and_then(|m| m.holder)));
        words.push(number(machine.as_ref().map(|m| m.start)));
    }
    for node in &tree.nodes {
        words.push(number(node.as_ref().map(|n| n.owner)));
        words.push(number(node.as_ref().and_then(|n| n.below)));
        for x in 0..COMMANDS {
            let transition = node.as_ref().and_then(|n| n.transitions[x]);
            words.push(transition.map_or(BLANK, |t| t.target as u32 * 65536 + t.cost));
        }
    }
    words.extend(tree.nodes.iter().map(|node| node.as_ref().is_some_and(|n| n.on_hold) as u32));
    words.extend(tree.machines.iter().map(|machine| machine.as_ref().map_or(0, |m| m.leave)));
    words
}

/// The tree that a book holds; `None` where the book is not well formed.
pub fn decode(words: &[u32]) -> Option<Tree> {
    assert_eq!(words.len(), BOOK_WORDS);
    let tree = Tree {
        root: below(words[0], MACHINES)?,
        machines: (0..MACHINES).map(|m| read_machine(words, m)).collect::<Option<_>>()?,
        nodes: (0..NODES).map(|n| read_node(words, n)).collect::<Option<_>>()?,
    };
    well_formed(&tree).then_some(tree)
}

/// A word that must be a number under a limit.
pub fn below(word: u32, limit: usize) -> Option<usize> {
    ((word as usize) < limit).then_some(word as usize)
}

/// A word that may also say that the number is not there.
pub fn number_or_absent(word: u32, limit: usize) -> Option<Option<usize>> {
    if word == ABSENT {
        Some(None)
    } else {
        below(word, limit).map(Some)
    }
}

/// A record of a machine; the outer `None` is a record that no well-formed book has.
fn read_machine(words: &[u32], m: usize) -> Option<Option<Machine>> {
    let holder = number_or_absent(words[machine_at(m)], NODES)?;
    let leave = below(words[leave_at(m)], 65536)? as u32;
    match number_or_absent(words[machine_at(m) + 1], NODES)? {
        None => (holder.is_none() && leave == 0).then_some(None),
        Some(start) => Some(Some(Machine { holder, start, leave })),
    }
}

fn read_node(words: &[u32], n: usize) -> Option<Option<Node>> {
    let at = node_at(n);
    let below = number_or_absent(words[at + 1], MACHINES)?;
    let mut transitions = [None; COMMANDS];
    for x in 0..COMMANDS {
        transitions[x] = read_transition(words[at + 2 + x])?;
    }
    let on_hold = read_hold(words[hold_at(n)])?;
    match number_or_absent(words[at], MACHINES)? {
        None => (below.is_none() && transitions.iter().all(Option::is_none) && !on_hold).then_some(None),
        Some(owner) => Some(Some(Node { owner, below, transitions, on_hold })),
    }
}

fn read_transition(word: u32) -> Option<Option<Transition>> {
    if word == BLANK {
        return Some(None);
    }
    let target = below(word / 65536, NODES)?;
    Some(Some(Transition { target, cost: word % 65536 }))
}

fn read_hold(word: u32) -> Option<bool> {
    below(word, 2).map(|hold| hold == 1)
}

/// Whether a tree is one that a well-formed book holds; its numbers are under their limits.
pub fn well_formed(tree: &Tree) -> bool {
    (0..MACHINES).all(|m| machine_fits(tree, m))
        && (0..NODES).all(|n| node_fits(tree, n))
        && tree.machines[tree.root].is_some()
        && tree.machines_in_use().iter().all(|&m| tree.level(m).is_some())
}

fn owned_by(tree: &Tree, n: usize, m: usize) -> bool {
    tree.nodes[n].as_ref().is_some_and(|node| node.owner == m)
}

/// The start belongs to the machine and is not held, and the root alone has no holder, and costs nothing to leave; another's holder names
/// it.
fn machine_fits(tree: &Tree, m: usize) -> bool {
    let Some(machine) = &tree.machines[m] else { return true };
    let placed = match machine.holder {
        None => m == tree.root && machine.leave == 0,
        Some(n) => m != tree.root && tree.nodes[n].as_ref().is_some_and(|node| node.below == Some(m)),
    };
    placed && owned_by(tree, machine.start, m) && !tree.node(machine.start).on_hold
}

/// The owner is in use, the machine below names the node, and all targets are in the same machine.
fn node_fits(tree: &Tree, n: usize) -> bool {
    let Some(node) = &tree.nodes[n] else { return true };
    let holds = match node.below {
        None => true,
        Some(m) => tree.machines[m].as_ref().is_some_and(|machine| machine.holder == Some(n)),
    };
    let stays = node.transitions.iter().flatten().all(|t| owned_by(tree, t.target, node.owner));
    tree.machines[node.owner].is_some() && holds && stays
}
