//! The tree of a table of rows, and the ladder's rows for a depth: document 02, W-208. A table is judged by what its rows claim of each
//! machine, before a tree is made of it.

use crate::book::{below, number_or_absent};
use crate::tree::{Machine, Node, Transition, Tree};
use crate::{ABSENT, LEVELS, MACHINES, NODES, ROW_WORDS};

/// The row of a node that is not in use.
pub const UNUSED: [u32; ROW_WORDS] = [ABSENT, ABSENT, 0];

/// What a row in use claims of its node: its machine, the machine below it, and whether it is its machine's start.
struct Claim {
    node: usize,
    owner: usize,
    below: Option<usize>,
    start: bool,
}

impl Claim {
    /// What the row of a node claims, nothing where it is unused; the outer `None` is a row that no table may have.
    fn of(node: usize, row: &[u32]) -> Option<Option<Claim>> {
        if row == UNUSED {
            return Some(None);
        }
        let (owner, start) = (below(row[0], MACHINES)?, below(row[2], 2)? == 1);
        Some(Some(Claim { node, owner, below: number_or_absent(row[1], MACHINES)?, start }))
    }
}

/// The tree that comes of a table; `None` where no well-formed one has all that the rows claim.
pub fn tree(table: &[u32]) -> Option<Tree> {
    let rows = table.chunks(ROW_WORDS).enumerate().map(|(node, row)| Claim::of(node, row));
    let claims: Vec<Claim> = rows.collect::<Option<Vec<_>>>()?.into_iter().flatten().collect();
    let machines = (0..MACHINES).map(|m| machine(&claims, m)).collect::<Option<Vec<_>>>()?;
    let root = only_root(&machines)?;
    if machines_from(&claims, root) < machines.iter().flatten().count() {
        return None;
    }
    let mut tree = Tree { root, machines, nodes: vec![None; NODES] };
    for claim in &claims {
        tree.nodes[claim.node] = Some(Node { below: claim.below, ..Node::plain(claim.owner) });
    }
    tree.machines_in_use().into_iter().for_each(|m| join_neighbours(&mut tree, m));
    Some(tree)
}

/// A machine as the rows claim it: one with rows has one start among them, and is below one node at most; one without is below none. The
/// outer `None` is a machine of which they claim otherwise.
fn machine(claims: &[Claim], m: usize) -> Option<Option<Machine>> {
    let nodes = |fits: &dyn Fn(&Claim) -> bool| claims.iter().filter(|c| fits(c)).map(|c| c.node).collect::<Vec<_>>();
    let (own, starts) = (nodes(&|c| c.owner == m), nodes(&|c| c.owner == m && c.start));
    match (own.len(), &starts[..], &nodes(&|c| c.below == Some(m))[..]) {
        (0, [], []) => Some(None),
        (_, &[start], []) => Some(Some(Machine::new(None, start))),
        (_, &[start], &[holder]) => Some(Some(Machine::new(Some(holder), start))),
        _ => None,
    }
}

/// The one machine that no row has below its node.
fn only_root(machines: &[Option<Machine>]) -> Option<usize> {
    let is_free = |m: &usize| machines[*m].as_ref().is_some_and(|machine| machine.holder.is_none());
    let free: Vec<usize> = (0..MACHINES).filter(is_free).collect();
    (free.len() == 1).then(|| free[0])
}

/// How many machines are met from the root down, level by level, on as many levels as there may be. Each has one holder at most, so none is
/// met twice; those in a ring are not met, nor those that are too deep.
fn machines_from(claims: &[Claim], root: usize) -> usize {
    let (mut met, mut level) = (0, vec![root]);
    for _ in 0..LEVELS {
        met += level.len();
        level = claims.iter().filter(|c| level.contains(&c.owner)).filter_map(|c| c.below).collect();
    }
    met
}

/// Command 0 to the next lower node of a machine and command 1 to the next higher one, at cost 1.
fn join_neighbours(tree: &mut Tree, machine: usize) {
    for pair in tree.nodes_of(machine).windows(2) {
        tree.node_mut(pair[1]).transitions[0] = Some(Transition { target: pair[0], cost: 1 });
        tree.node_mut(pair[0]).transitions[1] = Some(Transition { target: pair[1], cost: 1 });
    }
}

/// The row of a node of a tree.
pub fn row(tree: &Tree, node: usize) -> [u32; ROW_WORDS] {
    let Some(record) = &tree.nodes[node] else { return UNUSED };
    [record.owner as u32, record.below.map_or(ABSENT, |m| m as u32), tree.is_start(node) as u32]
}

/// The rows of the ladder of a depth: those of document 01's rule, with 2 to the depth, less 1, machines in place of 63.
pub fn ladder(depth: u32) -> Vec<u32> {
    let machines = 2u32.pow(depth) - 1;
    let holds = |m: u32| if m < machines { m } else { ABSENT };
    let rows = (0..machines).flat_map(|m| [[m, holds(2 * m + 1), 0], [m, ABSENT, 1], [m, holds(2 * m + 2), 0]]);
    rows.flatten().collect()
}
