//! The yardstick: a tree flattened to its states, and a binary-heap Dijkstra search over them. It trusts its book.

use crate::book::{hold_at, leave_at, machine_at, node_at};
use crate::{ABSENT, BLANK, COMMANDS, NODES};
use std::cmp::Reverse;
use std::collections::BinaryHeap;

const UNSEEN: u32 = u32::MAX;

/// How many binary digits of a move's word are its cost; the next state stands above them. No cost of a command is as large as they hold,
/// so that `BLANK` is no move.
const COST_DIGITS: u32 = 24;

/// For each state and command the next state and the cost as one word, or `BLANK` where the station stops.
#[derive(Clone)]
pub struct Flat {
    pub moves: Vec<[u32; COMMANDS]>,
}

/// A cheapest list.
#[derive(Clone, Debug, PartialEq, Eq)]
pub struct Way {
    pub cost: u32,
    pub commands: Vec<u8>,
}

impl Flat {
    /// Flattens a well-formed book, each node once: first what entering it leads to, `ABSENT` where it is held and transitions into it are
    /// shut; then the transition that each command uses.
    pub fn of(book: &[u32]) -> Flat {
        let entered: Vec<u32> = (0..NODES).map(|n| if on_hold(book, n) { ABSENT } else { enter(book, n) }).collect();
        let mut flat = Flat { moves: vec![[BLANK; COMMANDS]; NODES] };
        let mut done = [false; NODES];
        for n in 0..NODES {
            flat.resolve(book, &entered, &mut done, n);
        }
        flat
    }

    /// A node's own transitions that count, and for the other commands the moves of the node that holds its machine, with what leaving that
    /// machine costs.
    fn resolve(&mut self, book: &[u32], entered: &[u32], done: &mut [bool; NODES], n: usize) {
        let owner = book[node_at(n)];
        if done[n] || owner == ABSENT {
            return;
        }
        let holder = book[machine_at(owner as usize)];
        if holder != ABSENT {
            self.resolve(book, entered, done, holder as usize);
            let leave = book[leave_at(owner as usize)];
            self.moves[n] = self.moves[holder as usize].map(|word| if word == BLANK { BLANK } else { word + leave });
        }
        for x in 0..COMMANDS {
            let word = book[node_at(n) + 2 + x];
            if word != BLANK && entered[(word >> 16) as usize] != ABSENT {
                self.moves[n][x] = a_move(entered[(word >> 16) as usize], word & 0xffff);
            }
        }
        done[n] = true;
    }

    /// The same for states, by the text of documents 01 and 02 alone: each state and command climbs and enters by itself.
    pub fn step_by_step(book: &[u32]) -> Flat {
        let mut flat = Flat { moves: vec![[BLANK; COMMANDS]; NODES] };
        for n in (0..NODES).filter(|&n| book[node_at(n)] != ABSENT && book[node_at(n) + 1] == ABSENT) {
            for x in 0..COMMANDS {
                if let Some((target, cost)) = climb(book, n, x) {
                    flat.moves[n][x] = a_move(enter(book, target), cost);
                }
            }
        }
        flat
    }

    pub fn step(&self, state: usize, command: usize) -> Option<(usize, u32)> {
        let word = self.moves[state][command];
        (word != BLANK).then_some((next_state(word), cost_of(word)))
    }

    /// A cheapest list from one state to another.
    pub fn search(&self, from: usize, to: usize) -> Option<Way> {
        let mut costs = [UNSEEN; NODES];
        let mut before = [(0u8, 0u8); NODES];
        let mut heap = BinaryHeap::with_capacity(NODES);
        costs[from] = 0;
        heap.push(Reverse((0u32, from as u32)));
        while let Some(Reverse((cost, s))) = heap.pop() {
            let s = s as usize;
            if s == to {
                return Some(Way { cost, commands: list(&before, from, to) });
            }
            if cost == costs[s] {
                self.relax(s, cost, &mut costs, &mut before, &mut heap);
            }
        }
        None
    }

    fn relax(&self, s: usize, cost: u32, costs: &mut [u32], before: &mut [(u8, u8)], heap: &mut BinaryHeap<Reverse<(u32, u32)>>) {
        for (x, &word) in self.moves[s].iter().enumerate() {
            let next = next_state(word);
            if word != BLANK && cost + cost_of(word) < costs[next] {
                costs[next] = cost + cost_of(word);
                before[next] = (s as u8, x as u8);
                heap.push(Reverse((costs[next], next as u32)));
            }
        }
    }

    /// The least costs from one state to every node number; `None` where there is no way.
    pub fn costs_from(&self, from: usize) -> Vec<Option<u32>> {
        let mut costs = [UNSEEN; NODES];
        let mut before = [(0u8, 0u8); NODES];
        let mut heap = BinaryHeap::with_capacity(NODES);
        costs[from] = 0;
        heap.push(Reverse((0u32, from as u32)));
        while let Some(Reverse((cost, s))) = heap.pop() {
            if cost == costs[s as usize] {
                self.relax(s as usize, cost, &mut costs, &mut before, &mut heap);
            }
        }
        costs.iter().map(|&c| (c != UNSEEN).then_some(c)).collect()
    }
}

/// The word of a move to a state at a cost, and its two parts.
fn a_move(next: u32, cost: u32) -> u32 {
    next << COST_DIGITS | cost
}

fn next_state(word: u32) -> usize {
    (word >> COST_DIGITS) as usize
}

fn cost_of(word: u32) -> u32 {
    word & ((1 << COST_DIGITS) - 1)
}

fn on_hold(book: &[u32], node: usize) -> bool {
    book[hold_at(node)] == 1
}

/// The target of the transition that a command uses at a state, and its cost with that of the machines left on the way up; `None` where it
/// finds none that counts.
fn climb(book: &[u32], state: usize, command: usize) -> Option<(usize, u32)> {
    let (mut n, mut left) = (state, 0);
    loop {
        let word = book[node_at(n) + 2 + command];
        if word != BLANK && !on_hold(book, (word >> 16) as usize) {
            return Some(((word >> 16) as usize, left + (word & 0xffff)));
        }
        let machine = book[node_at(n)] as usize;
        let holder = book[machine_at(machine)];
        if holder == ABSENT {
            return None;
        }
        left += book[leave_at(machine)];
        n = holder as usize;
    }
}

fn enter(book: &[u32], node: usize) -> u32 {
    let mut n = node;
    while book[node_at(n)] != ABSENT && book[node_at(n) + 1] != ABSENT {
        n = book[machine_at(book[node_at(n) + 1] as usize) + 1] as usize;
    }
    n as u32
}

/// The commands of the names from the end back to the beginning, turned round.
fn list(before: &[(u8, u8)], from: usize, to: usize) -> Vec<u8> {
    let mut commands = vec![];
    let mut at = to;
    while at != from {
        commands.push(before[at].1);
        at = before[at].0 as usize;
    }
    commands.reverse();
    commands
}
