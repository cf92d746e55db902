//! The tree of machines and its step.

use crate::{COMMANDS, LEVELS, MACHINES, NODES};

#[derive(Clone, Copy, Debug, PartialEq, Eq)]
pub struct Transition {
    pub target: usize,
    pub cost: u32,
}

#[derive(Clone, Debug, PartialEq, Eq)]
pub struct Node {
    pub owner: usize,
    pub below: Option<usize>,
    pub transitions: [Option<Transition>; COMMANDS],
    /// Whether it is held (document 02, W-205): transitions into it are shut.
    pub on_hold: bool,
}

#[derive(Clone, Debug, PartialEq, Eq)]
pub struct Machine {
    pub holder: Option<usize>,
    pub start: usize,
    /// What leaving it costs (document 02, W-207); 0 for the root.
    pub leave: u32,
}

/// What a command does at a state: the state that it leads to, the cost, and the node whose transition it uses. The cost is that of the
/// transition and of leaving each machine that the command climbs past.
#[derive(Clone, Copy, Debug, PartialEq, Eq)]
pub struct Moved {
    pub state: usize,
    pub cost: u32,
    pub node: usize,
}

/// Machines and nodes by their numbers; `None` where a number is not in use.
#[derive(Clone, Debug, PartialEq, Eq)]
pub struct Tree {
    pub root: usize,
    pub machines: Vec<Option<Machine>>,
    pub nodes: Vec<Option<Node>>,
}

impl Machine {
    /// A machine that costs nothing to leave, as every new one.
    pub fn new(holder: Option<usize>, start: usize) -> Machine {
        Machine { holder, start, leave: 0 }
    }
}

impl Node {
    pub fn plain(owner: usize) -> Node {
        Node { owner, below: None, transitions: [None; COMMANDS], on_hold: false }
    }
}

impl Tree {
    /// The tree of one machine with its start node.
    pub fn single(machine: usize, start: usize) -> Tree {
        let mut tree = Tree { root: machine, machines: vec![None; MACHINES], nodes: vec![None; NODES] };
        tree.machines[machine] = Some(Machine::new(None, start));
        tree.nodes[start] = Some(Node::plain(machine));
        tree
    }

    /// The ladder: 63 machines of three nodes each.
    pub fn ladder() -> Tree {
        let mut tree = Tree::single(0, 1);
        for m in 0..63 {
            let holder = if m == 0 { None } else { Some(3 * ((m - 1) / 2) + if m % 2 == 1 { 0 } else { 2 }) };
            tree.machines[m] = Some(Machine::new(holder, 3 * m + 1));
            for k in 0..3 {
                tree.nodes[3 * m + k] = Some(ladder_node(m, k));
            }
        }
        tree
    }

    pub fn machine(&self, m: usize) -> &Machine {
        self.machines[m].as_ref().expect("a machine in use")
    }

    pub fn machine_mut(&mut self, m: usize) -> &mut Machine {
        self.machines[m].as_mut().expect("a machine in use")
    }

    pub fn node(&self, n: usize) -> &Node {
        self.nodes[n].as_ref().expect("a node in use")
    }

    pub fn node_mut(&mut self, n: usize) -> &mut Node {
        self.nodes[n].as_mut().expect("a node in use")
    }

    pub fn is_start(&self, n: usize) -> bool {
        self.machine(self.node(n).owner).start == n
    }

    pub fn is_state(&self, n: usize) -> bool {
        self.nodes[n].as_ref().is_some_and(|node| node.below.is_none())
    }

    pub fn states(&self) -> Vec<usize> {
        (0..NODES).filter(|&n| self.is_state(n)).collect()
    }

    pub fn machines_in_use(&self) -> Vec<usize> {
        (0..MACHINES).filter(|&m| self.machines[m].is_some()).collect()
    }

    /// The nodes of one machine, rising.
    pub fn nodes_of(&self, m: usize) -> Vec<usize> {
        (0..NODES).filter(|&n| self.nodes[n].as_ref().is_some_and(|node| node.owner == m)).collect()
    }

    /// The nodes that are held, rising.
    pub fn nodes_on_hold(&self) -> Vec<usize> {
        (0..NODES).filter(|&n| self.nodes[n].as_ref().is_some_and(|node| node.on_hold)).collect()
    }

    /// The machines that cost something to leave, rising.
    pub fn machines_with_leave(&self) -> Vec<usize> {
        self.machines_in_use().into_iter().filter(|&m| self.machine(m).leave != 0).collect()
    }

    /// The node that holds the machine of a node.
    pub fn up(&self, n: usize) -> Option<usize> {
        self.machine(self.node(n).owner).holder
    }

    /// The level of a machine, the root's being 1; `None` where it does not climb to the root within the levels.
    pub fn level(&self, machine: usize) -> Option<usize> {
        let mut m = machine;
        for level in 1..=LEVELS {
            match self.machines[m].as_ref()?.holder {
                None => return (m == self.root).then_some(level),
                Some(n) => m = self.nodes[n].as_ref()?.owner,
            }
        }
        None
    }

    /// Whether some machine is at the lowest level.
    pub fn is_deep(&self) -> bool {
        self.machines_in_use().iter().any(|&m| self.level(m) == Some(LEVELS))
    }

    /// The machine itself and all above it.
    pub fn upward(&self, machine: usize) -> Vec<usize> {
        let mut all = vec![machine];
        let mut m = machine;
        while let Some(n) = self.machine(m).holder {
            m = self.node(n).owner;
            all.push(m);
        }
        all
    }

    /// The state that entering a node leads to.
    pub fn enter(&self, node: usize) -> usize {
        let mut n = node;
        while let Some(m) = self.node(n).below {
            n = self.machine(m).start;
        }
        n
    }

    /// The transition of a node that counts for a command: one into a held node is shut, and counts as absent.
    pub fn counting(&self, n: usize, command: usize) -> Option<Transition> {
        self.node(n).transitions[command].filter(|t| !self.node(t.target).on_hold)
    }

    /// What leaving the machines of a state costs, its own and those above it up to but not including machine `top`.
    pub fn leaving_below(&self, top: usize, state: usize) -> u32 {
        self.upward(self.node(state).owner).iter().take_while(|&&m| m != top).map(|&m| self.machine(m).leave).sum()
    }

    /// What a command does at a state: the lowest node that has a transition which counts for it acts, the state itself first and then the
    /// nodes that hold it; `None` where the station stops.
    pub fn step(&self, state: usize, command: usize) -> Option<Moved> {
        self.step_inside(self.root, state, command)
    }

    /// The same with the transitions of one machine and those below it alone.
    pub fn step_inside(&self, top: usize, state: usize, command: usize) -> Option<Moved> {
        let mut n = state;
        loop {
            if let Some(t) = self.counting(n, command) {
                let cost = t.cost + self.leaving_below(self.node(n).owner, state);
                return Some(Moved { state: self.enter(t.target), cost, node: n });
            }
            if self.node(n).owner == top {
                return None;
            }
            n = self.up(n).expect("a machine above");
        }
    }
}

fn ladder_node(m: usize, k: usize) -> Node {
    let mut node = Node::plain(m);
    let below = if k == 0 { 2 * m + 1 } else { 2 * m + 2 };
    if k != 1 && below < 63 {
        node.below = Some(below);
    }
    if k > 0 {
        node.transitions[0] = Some(Transition { target: 3 * m + k - 1, cost: 1 });
    }
    if k < 2 {
        node.transitions[1] = Some(Transition { target: 3 * m + k + 1, cost: 1 });
    }
    node
}
