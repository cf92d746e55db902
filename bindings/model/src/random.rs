//! Random books, edits and damage, the same for the same seed.

use crate::stream::{Command, Station};
use crate::tree::Tree;
use crate::{table, COMMANDS, LEVELS, MACHINES, NODES};

/// A small generator of numbers (splitmix64).
pub struct Random(u64);

impl Random {
    pub fn new(seed: u64) -> Random {
        Random(seed.wrapping_mul(0x9e37_79b9_7f4a_7c15))
    }

    pub fn word(&mut self) -> u64 {
        self.0 = self.0.wrapping_add(0x9e37_79b9_7f4a_7c15);
        let mut z = self.0;
        z = (z ^ (z >> 30)).wrapping_mul(0xbf58_476d_1ce4_e5b9);
        z = (z ^ (z >> 27)).wrapping_mul(0x94d0_49bb_1331_11eb);
        z ^ (z >> 31)
    }

    /// A number under a limit that is not 0.
    pub fn below(&mut self, limit: usize) -> usize {
        (self.word() % limit as u64) as usize
    }

    pub fn chance(&mut self, percent: usize) -> bool {
        self.below(100) < percent
    }

    pub fn pick<T: Copy>(&mut self, all: &[T]) -> T {
        all[self.below(all.len())]
    }

    pub fn shuffled(&mut self, count: usize) -> Vec<usize> {
        let mut all: Vec<usize> = (0..count).collect();
        for i in (1..count).rev() {
            all.swap(i, self.below(i + 1));
        }
        all
    }
}

/// Where new machines are put: below the lowest machine, the same with about as many nodes in each, below the root, or anywhere.
#[derive(Clone, Copy, Debug, PartialEq, Eq)]
pub enum Growth {
    Chain,
    EvenChain,
    Wide,
    Any,
}

#[derive(Clone, Copy, Debug, PartialEq, Eq)]
pub enum Costs {
    Zero,
    Few,
    Any,
    Largest,
}

/// What a random book is like. `filled` is the share of node and command pairs that have a transition, in percent; `loops` is the share
/// of transitions that lead to their own node; `holds` is the share of nodes that are held, start nodes left out; `leaves` is the share of
/// machines whose leaving has a cost, one of `costs`, the root left out.
#[derive(Clone, Copy, Debug)]
pub struct Shape {
    pub growth: Growth,
    pub machines: usize,
    pub nodes: usize,
    pub commands: usize,
    pub filled: usize,
    pub loops: usize,
    pub costs: Costs,
    pub holds: usize,
    pub leaves: usize,
}

impl Shape {
    /// The largest book without holds and without costs of leaving: every machine, node and command in use, every transition there.
    pub fn full() -> Shape {
        let (growth, costs) = (Growth::Any, Costs::Any);
        Shape { growth, machines: MACHINES, nodes: NODES, commands: COMMANDS, filled: 100, loops: 5, costs, holds: 0, leaves: 0 }
    }

    /// The book with the longest stream: every machine, node and transition, all nodes but the starts held, and a cost of leaving for every
    /// machine but the root. Each machine less makes the stream two bytes shorter.
    pub fn longest() -> Shape {
        Shape { costs: Costs::Largest, holds: 100, leaves: 100, ..Shape::full() }
    }

    /// A shape chosen at random.
    pub fn random(random: &mut Random) -> Shape {
        let growth = random.pick(&[Growth::Chain, Growth::Wide, Growth::Any, Growth::Any]);
        let most = if growth == Growth::Chain { LEVELS } else { MACHINES };
        let size = random.pick(&[4, 8, most]);
        let machines = 1 + random.below(most.min(size));
        Shape {
            growth,
            machines,
            nodes: machines + random.below(random_nodes(size).min(NODES - machines) + 1),
            commands: random.pick(&[1, 2, 3, 5, COMMANDS]),
            filled: random.pick(&[10, 30, 60, 90]),
            loops: random.pick(&[0, 10, 50]),
            costs: random.pick(&[Costs::Zero, Costs::Few, Costs::Few, Costs::Any, Costs::Largest]),
            holds: random.pick(&[0, 0, 10, 30]),
            leaves: random.pick(&[0, 50, 100]),
        }
    }
}

fn random_nodes(size: usize) -> usize {
    3 * size
}

/// Machine and node numbers still to be given out, in random order.
struct Numbers {
    machines: Vec<usize>,
    nodes: Vec<usize>,
}

/// The commands that make a random book of a shape.
pub fn book(random: &mut Random, shape: &Shape) -> Vec<Command> {
    let mut numbers = Numbers { machines: random.shuffled(MACHINES), nodes: random.shuffled(NODES) };
    numbers.machines.truncate(shape.machines);
    numbers.nodes.truncate(shape.nodes);
    let begin = Command::Begin { machine: numbers.machines.pop().expect("a machine"), start: numbers.nodes.pop().expect("a node") };
    let mut station = Station::stale(Tree::single(0, 0));
    let mut all = vec![begin];
    station.apply(&begin);
    while let Some(command) = grow(random, shape, &station.tree, &mut numbers) {
        station.apply(&command);
        all.push(command);
    }
    let starts = starts(random, &station.tree);
    starts.iter().for_each(|command| station.apply(command));
    all.extend(starts);
    all.extend(arrows(random, shape, &station.tree));
    all.extend(holds(random, shape, &station.tree));
    all.extend(leaves(random, shape, &station.tree));
    all
}

/// The next machine or node of a growing book; `None` when it is grown.
fn grow(random: &mut Random, shape: &Shape, tree: &Tree, numbers: &mut Numbers) -> Option<Command> {
    let node = numbers.nodes.pop()?;
    let holders = holders(shape, tree);
    let must_refine = shape.growth == Growth::EvenChain || numbers.nodes.len() < numbers.machines.len();
    let share = 100 * numbers.machines.len() / (numbers.nodes.len() + 1);
    if numbers.machines.is_empty() || holders.is_empty() || !(must_refine || random.chance(share)) {
        return Some(Command::Add { machine: owner_of_new(random, shape, tree), node });
    }
    let machine = numbers.machines.pop()?;
    let crown = Command::Crown { machine, node };
    if random.chance(5) && crown.refusal(tree) == 0 {
        return Some(crown);
    }
    Some(Command::Refine { node: random.pick(&holders), machine, start: node })
}

/// The plain nodes that may be refined.
fn holders(shape: &Shape, tree: &Tree) -> Vec<usize> {
    let lowest = tree.machines_in_use().iter().filter_map(|&m| tree.level(m)).max();
    let wanted = match shape.growth {
        Growth::Chain | Growth::EvenChain => lowest,
        Growth::Wide => Some(1),
        Growth::Any => None,
    };
    let level = |n: usize| tree.level(tree.node(n).owner).expect("a level");
    let fits = |n: usize| level(n) < LEVELS && wanted.is_none_or(|wanted| level(n) == wanted);
    tree.states().into_iter().filter(|&n| fits(n)).collect()
}

fn owner_of_new(random: &mut Random, shape: &Shape, tree: &Tree) -> usize {
    let machines = tree.machines_in_use();
    match shape.growth {
        Growth::Wide if random.chance(70) => tree.root,
        Growth::EvenChain => *machines.iter().min_by_key(|&&m| tree.nodes_of(m).len()).expect("a machine"),
        _ => random.pick(&machines),
    }
}

/// New start nodes for some machines.
fn starts(random: &mut Random, tree: &Tree) -> Vec<Command> {
    let mut all = vec![];
    for m in tree.machines_in_use() {
        if random.chance(50) {
            all.push(Command::Start { node: random.pick(&tree.nodes_of(m)) });
        }
    }
    all
}

fn arrows(random: &mut Random, shape: &Shape, tree: &Tree) -> Vec<Command> {
    let mut all = vec![];
    for node in (0..NODES).filter(|&n| tree.nodes[n].is_some()) {
        let fellows = tree.nodes_of(tree.node(node).owner);
        for command in 0..shape.commands {
            if random.chance(shape.filled) {
                let target = if random.chance(shape.loops) { node } else { random.pick(&fellows) };
                all.push(Command::Arrow { node, command, target, cost: cost(random, shape.costs) });
            }
        }
    }
    all
}

/// Holds of some nodes, plain and refined; start nodes cannot be held.
fn holds(random: &mut Random, shape: &Shape, tree: &Tree) -> Vec<Command> {
    let nodes = (0..NODES).filter(|&n| tree.nodes[n].is_some() && !tree.is_start(n));
    nodes.filter(|_| random.chance(shape.holds)).map(|node| Command::Hold { node, hold: 1 }).collect()
}

/// Costs of leaving some machines; the root has none.
fn leaves(random: &mut Random, shape: &Shape, tree: &Tree) -> Vec<Command> {
    let mut all = vec![];
    for machine in tree.machines_in_use().into_iter().filter(|&m| m != tree.root) {
        if random.chance(shape.leaves) {
            all.push(Command::Leave { machine, cost: cost(random, shape.costs) });
        }
    }
    all
}

fn cost(random: &mut Random, costs: Costs) -> usize {
    match costs {
        Costs::Zero => 0,
        Costs::Few => random.below(4),
        Costs::Any => random.below(65536),
        Costs::Largest => 65535,
    }
}

/// The bytes of commands.
pub fn bytes(commands: &[Command]) -> Vec<u8> {
    commands.iter().flat_map(Command::bytes).collect()
}

/// A table of so many rows with a random tree of a shape. Its nodes, which are no more than the rows, are put at rows at random, and the
/// other rows are unused.
pub fn table(random: &mut Random, shape: &Shape, rows: usize) -> Vec<u32> {
    let mut station = Station::stale(Tree::single(0, 0));
    book(random, shape).iter().for_each(|command| station.apply(command));
    let nodes: Vec<usize> = (0..NODES).filter(|&n| station.tree.nodes[n].is_some()).collect();
    assert!(nodes.len() <= rows, "more nodes than rows");
    let places = random.shuffled(rows);
    let row = |place: usize| nodes.get(places[place]).map_or(table::UNUSED, |&node| table::row(&station.tree, node));
    (0..rows).flat_map(row).collect()
}

/// A random command for a tree: mostly one that is done, sometimes one that is refused.
pub fn edit(random: &mut Random, tree: &Tree) -> Command {
    let node = some_node(random, tree);
    let machine = some_machine(random, tree);
    match random.below(52) {
        0 => Command::Begin { machine: new_machine(random, tree), start: new_node(random, tree) },
        1..=6 => Command::Add { machine, node: new_node(random, tree) },
        7..=12 => Command::Refine { node, machine: new_machine(random, tree), start: new_node(random, tree) },
        13..=15 => Command::Remove { node },
        16..=29 => {
            Command::Arrow { node, command: some_command(random), target: fellow(random, tree, node), cost: cost(random, Costs::Few) }
        }
        30..=32 => Command::Clear { node, command: some_command(random) },
        33..=35 => Command::Start { node },
        36..=37 => Command::Crown { machine: new_machine(random, tree), node: new_node(random, tree) },
        38..=43 => Command::Hold { node, hold: some_hold(random) },
        44..=49 => Command::Leave { machine, cost: cost(random, Costs::Few) },
        _ => Command::Refresh,
    }
}

/// The bits of some seconds and of a dead time. Most give a cost, and most of these are close to where it changes.
pub fn timing(random: &mut Random) -> (u32, u32) {
    let limit = random.pick(&[2, 256, 65536]);
    let whole = random.below(limit) as f32;
    match random.below(8) {
        0 => (random.word() as u32, random.word() as u32),
        1 => (subnormal(random), subnormal(random)),
        2 => (near(random, whole), random.pick(&[0f32, -0.0]).to_bits()),
        3 | 4 => less_nearly_whole(random, whole),
        5 | 6 => less_nearly_half(random, whole),
        _ => less_nearly_half(random, 65535.0),
    }
}

/// The bits of a float or of one of its neighbours.
fn near(random: &mut Random, float: f32) -> u32 {
    float.to_bits().wrapping_add(random.below(5) as u32).wrapping_sub(2)
}

/// The bits of a float under the smallest normal one, or of zero.
fn subnormal(random: &mut Random) -> u32 {
    random.below(1 << 23) as u32 >> random.below(24)
}

/// A dead time of any size up to a day, and seconds that are longer by a whole number or nearly so.
fn less_nearly_whole(random: &mut Random, whole: f32) -> (u32, u32) {
    let dead_time = random.below(86_400 << 8) as f32 / (1u64 << random.below(40)) as f32;
    (near(random, whole + dead_time), dead_time.to_bits())
}

/// Seconds of a whole number or nearly so, and a dead time of some quarters of the distance to the next float, or nearly so.
fn less_nearly_half(random: &mut Random, whole: f32) -> (u32, u32) {
    let step = f32::from_bits(whole.to_bits() + 1) - whole;
    let quarters = random.below(8) as f32;
    (near(random, whole), near(random, quarters / 4.0 * step))
}

fn some_command(random: &mut Random) -> usize {
    if random.chance(2) {
        random.below(256)
    } else {
        random.below(COMMANDS)
    }
}

fn some_hold(random: &mut Random) -> usize {
    if random.chance(5) {
        random.below(256)
    } else {
        random.below(2)
    }
}

fn some_node(random: &mut Random, tree: &Tree) -> usize {
    let used: Vec<usize> = (0..NODES).filter(|&n| tree.nodes[n].is_some()).collect();
    match random.below(100) {
        0..=1 => random.below(65536),
        2..=3 => random.below(NODES + 1),
        _ => random.pick(&used),
    }
}

fn some_machine(random: &mut Random, tree: &Tree) -> usize {
    match random.below(100) {
        0..=1 => random.below(256),
        2..=3 => random.below(MACHINES + 1),
        _ => random.pick(&tree.machines_in_use()),
    }
}

fn new_node(random: &mut Random, tree: &Tree) -> usize {
    let unused: Vec<usize> = (0..NODES).filter(|&n| tree.nodes[n].is_none()).collect();
    if unused.is_empty() || random.chance(4) {
        return some_node(random, tree);
    }
    random.pick(&unused)
}

fn new_machine(random: &mut Random, tree: &Tree) -> usize {
    let unused: Vec<usize> = (0..MACHINES).filter(|&m| tree.machines[m].is_none()).collect();
    if unused.is_empty() || random.chance(4) {
        return some_machine(random, tree);
    }
    random.pick(&unused)
}

/// Mostly a node of the same machine.
fn fellow(random: &mut Random, tree: &Tree, node: usize) -> usize {
    match tree.nodes.get(node) {
        Some(Some(record)) if !random.chance(4) => random.pick(&tree.nodes_of(record.owner)),
        _ => some_node(random, tree),
    }
}
