//! Streams: reading a command, its refusals, what it does to the tree and which machines it leaves stale.

use crate::tree::{Machine, Node, Transition, Tree};
use crate::{COMMANDS, LEVELS, MACHINES, NODES};

#[derive(Clone, Copy, Debug, PartialEq, Eq)]
pub enum Command {
    Begin { machine: usize, start: usize },
    Add { machine: usize, node: usize },
    Refine { node: usize, machine: usize, start: usize },
    Remove { node: usize },
    Arrow { node: usize, command: usize, target: usize, cost: usize },
    Clear { node: usize, command: usize },
    Start { node: usize },
    Crown { machine: usize, node: usize },
    Refresh,
    Hold { node: usize, hold: usize },
    Leave { machine: usize, cost: usize },
}

/// How a machine's rows stand after some commands: stale and blank, as they were before, or filled by a refresh.
#[derive(Clone, Copy, Debug, PartialEq, Eq)]
pub enum Row {
    Stale,
    Kept,
    Filled,
}

/// A tree, and how the rows of each machine in use stand.
#[derive(Clone, Debug, PartialEq, Eq)]
pub struct Station {
    pub tree: Tree,
    pub rows: Vec<Row>,
}

/// What Load answers: bytes taken, commands taken, and 0 or the refusal.
#[derive(Clone, Copy, Debug, PartialEq, Eq)]
pub struct Loaded {
    pub bytes: u64,
    pub commands: u64,
    pub number: u32,
}

/// The operands of an opcode, each with its width in bytes; `None` for an unknown opcode.
fn widths(opcode: u8) -> Option<&'static [usize]> {
    match opcode {
        0x10 | 0x11 | 0x17 | 0x1b => Some(&[1, 2]),
        0x12 => Some(&[2, 1, 2]),
        0x13 | 0x16 => Some(&[2]),
        0x14 => Some(&[2, 1, 2, 2]),
        0x15 | 0x1a => Some(&[2, 1]),
        0x18 => Some(&[]),
        _ => None,
    }
}

impl Command {
    fn of(opcode: u8, o: &[usize]) -> Command {
        match opcode {
            0x10 => Command::Begin { machine: o[0], start: o[1] },
            0x11 => Command::Add { machine: o[0], node: o[1] },
            0x12 => Command::Refine { node: o[0], machine: o[1], start: o[2] },
            0x13 => Command::Remove { node: o[0] },
            0x14 => Command::Arrow { node: o[0], command: o[1], target: o[2], cost: o[3] },
            0x15 => Command::Clear { node: o[0], command: o[1] },
            0x16 => Command::Start { node: o[0] },
            0x17 => Command::Crown { machine: o[0], node: o[1] },
            0x1a => Command::Hold { node: o[0], hold: o[1] },
            0x1b => Command::Leave { machine: o[0], cost: o[1] },
            _ => Command::Refresh,
        }
    }

    fn parts(&self) -> (u8, Vec<usize>) {
        match *self {
            Command::Begin { machine, start } => (0x10, vec![machine, start]),
            Command::Add { machine, node } => (0x11, vec![machine, node]),
            Command::Refine { node, machine, start } => (0x12, vec![node, machine, start]),
            Command::Remove { node } => (0x13, vec![node]),
            Command::Arrow { node, command, target, cost } => (0x14, vec![node, command, target, cost]),
            Command::Clear { node, command } => (0x15, vec![node, command]),
            Command::Start { node } => (0x16, vec![node]),
            Command::Crown { machine, node } => (0x17, vec![machine, node]),
            Command::Refresh => (0x18, vec![]),
            Command::Hold { node, hold } => (0x1a, vec![node, hold]),
            Command::Leave { machine, cost } => (0x1b, vec![machine, cost]),
        }
    }

    /// The bytes of the command.
    pub fn bytes(&self) -> Vec<u8> {
        let (opcode, operands) = self.parts();
        let mut bytes = vec![opcode];
        for (operand, width) in operands.into_iter().zip(widths(opcode).expect("a known opcode")) {
            bytes.extend_from_slice(&(operand as u64).to_be_bytes()[8 - width..]);
        }
        bytes
    }

    /// The command at the front of some bytes and its length, or the refusal 5 or 4.
    pub fn read(bytes: &[u8]) -> Result<(Command, usize), u32> {
        let widths = widths(bytes[0]).ok_or(5u32)?;
        let length = 1 + widths.iter().sum::<usize>();
        if bytes.len() < length {
            return Err(4);
        }
        let mut rest = &bytes[1..];
        let mut operands = vec![];
        for &width in widths {
            operands.push(rest[..width].iter().fold(0, |n, &b| n * 256 + b as usize));
            rest = &rest[width..];
        }
        Ok((Command::of(bytes[0], &operands), length))
    }

    /// Whether each number that it names is under its limit, for refusal 6. The machine whose leaving gets a cost must not be the root.
    fn in_range(&self, root: usize) -> bool {
        let numbers = match *self {
            Command::Begin { machine, start: node } | Command::Add { machine, node } | Command::Crown { machine, node } => {
                vec![(machine, MACHINES), (node, NODES)]
            }
            Command::Refine { node, machine, start } => vec![(node, NODES), (machine, MACHINES), (start, NODES)],
            Command::Remove { node } | Command::Start { node } => vec![(node, NODES)],
            Command::Arrow { node, command, target, .. } => vec![(node, NODES), (command, COMMANDS), (target, NODES)],
            Command::Clear { node, command } => vec![(node, NODES), (command, COMMANDS)],
            Command::Refresh => vec![],
            Command::Hold { node, hold } => vec![(node, NODES), (hold, 2)],
            Command::Leave { machine, .. } if machine == root => return false,
            Command::Leave { machine, .. } => vec![(machine, MACHINES)],
        };
        numbers.iter().all(|&(number, limit)| number < limit)
    }

    /// The refusal 6 to 12 or 21 of the command on a tree, or 0.
    pub fn refusal(&self, tree: &Tree) -> u32 {
        if !self.in_range(tree.root) {
            return 6;
        }
        let machine_used = |m: usize| tree.machines[m].is_some();
        let node_used = |n: usize| tree.nodes[n].is_some();
        match *self {
            Command::Begin { .. } | Command::Refresh => 0,
            Command::Add { machine, node } => first(&[(7, !machine_used(machine)), (8, node_used(node))]),
            Command::Refine { node, machine, start } if node_used(node) => first(&[
                (8, machine_used(machine) || node_used(start)),
                (9, tree.node(node).below.is_some()),
                (12, tree.level(tree.node(node).owner) == Some(LEVELS)),
            ]),
            Command::Remove { node } if node_used(node) => first(&[(10, tree.is_start(node))]),
            Command::Arrow { node, target, .. } if node_used(node) && node_used(target) => {
                first(&[(11, tree.node(node).owner != tree.node(target).owner)])
            }
            Command::Clear { node, .. } if node_used(node) => 0,
            Command::Start { node } if node_used(node) => first(&[(21, tree.node(node).on_hold)]),
            Command::Hold { node, hold } if node_used(node) => first(&[(21, hold == 1 && tree.is_start(node))]),
            Command::Leave { machine, .. } if machine_used(machine) => 0,
            Command::Crown { machine, node } => first(&[(8, machine_used(machine) || node_used(node)), (12, tree.is_deep())]),
            _ => 7,
        }
    }
}

/// The first refusal that holds, or 0.
fn first(refusals: &[(u32, bool)]) -> u32 {
    refusals.iter().find(|(_, holds)| *holds).map_or(0, |(number, _)| *number)
}

impl Station {
    /// A station whose machines are all stale.
    pub fn stale(tree: Tree) -> Station {
        Station { tree, rows: vec![Row::Stale; MACHINES] }
    }

    /// Does a stream up to its end or its first refused command.
    pub fn load(&mut self, stream: &[u8]) -> Loaded {
        let mut loaded = Loaded { bytes: 0, commands: 0, number: 0 };
        while loaded.number == 0 && (loaded.bytes as usize) < stream.len() {
            match self.next(&stream[loaded.bytes as usize..]) {
                Err(number) => loaded.number = number,
                Ok(length) => {
                    loaded.bytes += length as u64;
                    loaded.commands += 1;
                }
            }
        }
        loaded
    }

    /// Does the command at the front of some bytes; gives its length or the refusal.
    fn next(&mut self, bytes: &[u8]) -> Result<usize, u32> {
        let (command, length) = Command::read(bytes)?;
        match command.refusal(&self.tree) {
            0 => {
                self.apply(&command);
                Ok(length)
            }
            number => Err(number),
        }
    }

    /// Does a command that is not refused.
    pub fn apply(&mut self, command: &Command) {
        match *command {
            Command::Begin { machine, start } => *self = Station::stale(Tree::single(machine, start)),
            Command::Add { machine, node } => {
                self.tree.nodes[node] = Some(Node::plain(machine));
                self.touch(machine);
            }
            Command::Refine { node, machine, start } => self.refine(node, machine, start),
            Command::Remove { node } => {
                self.touch(self.tree.node(node).owner);
                self.remove(node);
            }
            Command::Arrow { node, command, target, cost } => {
                self.set(node, command, Some(Transition { target, cost: cost as u32 }));
            }
            Command::Clear { node, command } => self.set(node, command, None),
            Command::Start { node } => self.start(node),
            Command::Crown { machine, node } => self.crown(machine, node),
            Command::Refresh => self.refresh(),
            Command::Hold { node, hold } => self.hold(node, hold == 1),
            Command::Leave { machine, cost } => {
                self.tree.machine_mut(machine).leave = cost as u32;
                self.touch(machine);
            }
        }
    }

    /// Marks a machine and all above it stale.
    fn touch(&mut self, machine: usize) {
        for m in self.tree.upward(machine) {
            self.rows[m] = Row::Stale;
        }
    }

    fn set(&mut self, node: usize, command: usize, transition: Option<Transition>) {
        self.tree.node_mut(node).transitions[command] = transition;
        self.touch(self.tree.node(node).owner);
    }

    fn hold(&mut self, node: usize, on_hold: bool) {
        self.tree.node_mut(node).on_hold = on_hold;
        self.touch(self.tree.node(node).owner);
    }

    fn start(&mut self, node: usize) {
        let owner = self.tree.node(node).owner;
        self.tree.machine_mut(owner).start = node;
        self.touch(owner);
    }

    fn refine(&mut self, node: usize, machine: usize, start: usize) {
        self.tree.machines[machine] = Some(Machine::new(Some(node), start));
        self.tree.nodes[start] = Some(Node::plain(machine));
        self.tree.node_mut(node).below = Some(machine);
        self.touch(machine);
    }

    fn crown(&mut self, machine: usize, node: usize) {
        let old = self.tree.root;
        self.tree.machine_mut(old).holder = Some(node);
        self.tree.machines[machine] = Some(Machine::new(None, node));
        self.tree.nodes[node] = Some(Node { below: Some(old), ..Node::plain(machine) });
        self.tree.root = machine;
        self.rows[machine] = Row::Stale;
    }

    fn refresh(&mut self) {
        for row in self.rows.iter_mut().filter(|row| **row == Row::Stale) {
            *row = Row::Filled;
        }
    }

    /// Deletes a node, all below it, their holds and the transitions into it.
    fn remove(&mut self, node: usize) {
        if let Some(m) = self.tree.node(node).below {
            for n in self.tree.nodes_of(m) {
                self.remove(n);
            }
            self.tree.machines[m] = None;
        }
        self.tree.nodes[node] = None;
        for other in self.tree.nodes.iter_mut().flatten() {
            for transition in other.transitions.iter_mut().filter(|t| t.is_some_and(|t| t.target == node)) {
                *transition = None;
            }
        }
    }
}
