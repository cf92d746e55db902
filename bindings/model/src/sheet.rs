//! The words of a sheet, and when it is true of a tree. Exit costs come from a search over the states inside a machine, by document
//! 01's own words, and not from the costs of nodes.

use crate::tree::Tree;
use crate::{ABSENT, BLANK, COMMANDS, MACHINES, NODES, SHEET_WORDS};

pub type Exits = [Option<u32>; COMMANDS];

/// A name: the node before and the command before.
pub type Name = (usize, usize);

pub fn machine_row(m: usize) -> usize {
    33 * m
}

pub fn node_row(n: usize) -> usize {
    2112 + 3 * n
}

/// The words of a sheet in which nothing is in use.
pub fn blank() -> Vec<u32> {
    let mut words = vec![ABSENT; SHEET_WORDS];
    for m in 0..MACHINES {
        words[machine_row(m)] = 0;
        words[machine_row(m) + 1..machine_row(m) + 17].fill(BLANK);
    }
    for n in 0..NODES {
        words[node_row(n)] = BLANK;
    }
    words
}

/// The sheet of a tree all of whose machines are stale.
pub fn stale(tree: &Tree) -> Vec<u32> {
    let mut words = blank();
    for m in tree.machines_in_use() {
        words[machine_row(m)] = 1;
    }
    words
}

/// The exit costs of a machine: least costs from its start state to each state inside it, then the least over the states where a
/// command finds no transition inside that counts, with what leaving the machines below costs there (document 02, W-207).
pub fn exits(tree: &Tree, m: usize) -> Exits {
    let mut costs = vec![None; NODES];
    let mut open = vec![tree.enter(tree.machine(m).start)];
    costs[open[0]] = Some(0u32);
    let mut exits = [None; COMMANDS];
    while let Some(i) = (0..open.len()).min_by_key(|&i| costs[open[i]]) {
        let s = open.swap_remove(i);
        let so_far = costs[s].expect("a reached state");
        for (x, exit) in exits.iter_mut().enumerate() {
            match tree.step_inside(m, s, x) {
                None => *exit = least(*exit, so_far + tree.leaving_below(m, s)),
                Some(to) => reach(&mut costs, &mut open, to.state, so_far + to.cost),
            }
        }
    }
    exits
}

fn least(known: Option<u32>, cost: u32) -> Option<u32> {
    Some(known.map_or(cost, |k| k.min(cost)))
}

fn reach(costs: &mut [Option<u32>], open: &mut Vec<usize>, t: usize, cost: u32) {
    if costs[t].is_none_or(|known| cost < known) {
        costs[t] = Some(cost);
        if !open.contains(&t) {
            open.push(t);
        }
    }
}

/// The exit costs of every machine in use.
pub fn all_exits(tree: &Tree) -> Vec<Exits> {
    (0..MACHINES).map(|m| if tree.machines[m].is_some() { exits(tree, m) } else { [None; COMMANDS] }).collect()
}

/// The exit cost of a node: 0 where it is plain, else that of the machine below and what leaving that machine costs.
pub fn node_exit(tree: &Tree, exits: &[Exits], n: usize, x: usize) -> Option<u32> {
    tree.node(n).below.map_or(Some(0), |m| exits[m][x].map(|e| e + tree.machine(m).leave))
}

/// The moves of a machine, by the transitions that count: from, command, to, and what the move costs.
pub fn moves(tree: &Tree, exits: &[Exits], m: usize) -> Vec<(usize, usize, usize, u32)> {
    let mut all = vec![];
    for u in tree.nodes_of(m) {
        for x in 0..COMMANDS {
            if let (Some(t), Some(e)) = (tree.counting(u, x), node_exit(tree, exits, u, x)) {
                all.push((u, x, t.target, e + t.cost));
            }
        }
    }
    all
}

/// The least costs of the nodes of a machine from its start, by going over all moves until nothing gets cheaper.
pub fn node_costs(tree: &Tree, exits: &[Exits], m: usize) -> Vec<Option<u32>> {
    let mut costs = vec![None; NODES];
    costs[tree.machine(m).start] = Some(0u32);
    let moves = moves(tree, exits, m);
    let mut again = true;
    while again {
        again = false;
        for &(u, _, v, cost) in &moves {
            if let Some(c) = costs[u] {
                if costs[v].is_none_or(|known| c + cost < known) {
                    costs[v] = Some(c + cost);
                    again = true;
                }
            }
        }
    }
    costs
}

/// Whether a sheet is true of the tree.
pub fn is_true(tree: &Tree, words: &[u32]) -> bool {
    assert_eq!(words.len(), SHEET_WORDS);
    let exits = all_exits(tree);
    (0..MACHINES).all(|m| words[machine_row(m)] <= 1)
        && (0..MACHINES).all(|m| marks_close_upward(tree, words, m))
        && (0..MACHINES).all(|m| machine_is_true(tree, &exits, words, m))
        && (0..NODES).all(|n| tree.nodes[n].is_some() || node_is_blank(words, n))
}

pub fn is_stale(words: &[u32], m: usize) -> bool {
    words[machine_row(m)] == 1
}

/// A stale machine is in use, and all above it are stale.
fn marks_close_upward(tree: &Tree, words: &[u32], m: usize) -> bool {
    !is_stale(words, m) || (tree.machines[m].is_some() && tree.upward(m).iter().all(|&above| is_stale(words, above)))
}

fn machine_is_blank(words: &[u32], m: usize) -> bool {
    let row = &words[machine_row(m) + 1..machine_row(m) + 33];
    row[..COMMANDS].iter().all(|&w| w == BLANK) && row[COMMANDS..].iter().all(|&w| w == ABSENT)
}

fn node_is_blank(words: &[u32], n: usize) -> bool {
    words[node_row(n)..node_row(n) + 3] == [BLANK, ABSENT, ABSENT]
}

fn machine_is_true(tree: &Tree, exits: &[Exits], words: &[u32], m: usize) -> bool {
    if tree.machines[m].is_none() {
        return machine_is_blank(words, m);
    }
    if is_stale(words, m) {
        return machine_is_blank(words, m) && tree.nodes_of(m).iter().all(|&n| node_is_blank(words, n));
    }
    let costs = node_costs(tree, exits, m);
    (0..COMMANDS).all(|x| exit_is_true(tree, exits, &costs, words, m, x))
        && tree.nodes_of(m).iter().all(|&n| node_is_true(tree, exits, &costs, words, n))
}

/// The exit cost is the least one, and the last node attains it.
fn exit_is_true(tree: &Tree, exits: &[Exits], costs: &[Option<u32>], words: &[u32], m: usize, x: usize) -> bool {
    let cost = words[machine_row(m) + 1 + x];
    let last = words[machine_row(m) + 17 + x];
    match exits[m][x] {
        None => cost == BLANK && last == ABSENT,
        Some(e) => cost == e && (last as usize) < NODES && attains(tree, exits, costs, m, x, last as usize, e),
    }
}

fn attains(tree: &Tree, exits: &[Exits], costs: &[Option<u32>], m: usize, x: usize, last: usize, cost: u32) -> bool {
    let Some(node) = &tree.nodes[last] else { return false };
    let sum = costs[last].zip(node_exit(tree, exits, last, x)).map(|(c, e)| c + e);
    node.owner == m && tree.counting(last, x).is_none() && sum == Some(cost)
}

fn node_is_true(tree: &Tree, exits: &[Exits], costs: &[Option<u32>], words: &[u32], n: usize) -> bool {
    let row = &words[node_row(n)..node_row(n) + 3];
    if tree.is_start(n) {
        return row == [0, ABSENT, ABSENT];
    }
    match costs[n] {
        None => node_is_blank(words, n),
        Some(c) => {
            row[0] == c
                && (row[1] as usize) < NODES
                && (row[2] as usize) < COMMANDS
                && gives(tree, exits, costs, n, (row[1] as usize, row[2] as usize))
                && comes_to_start(tree, words, n)
        }
    }
}

/// Whether a name is a transition of the same machine into the node that counts and gives exactly its cost.
pub fn gives(tree: &Tree, exits: &[Exits], costs: &[Option<u32>], n: usize, (u, x): Name) -> bool {
    let Some(t) = tree.nodes[u].as_ref().and_then(|_| tree.counting(u, x)) else { return false };
    let sum = costs[u].zip(node_exit(tree, exits, u, x)).map(|(c, e)| c + e + t.cost);
    t.target == n && sum.is_some() && sum == costs[n]
}

fn comes_to_start(tree: &Tree, words: &[u32], n: usize) -> bool {
    let mut at = n;
    for _ in 0..255 {
        if tree.is_start(at) {
            return true;
        }
        at = words[node_row(at) + 1] as usize;
        if at >= NODES || tree.nodes[at].is_none() {
            return false;
        }
    }
    tree.is_start(at)
}

/// A true sheet in which no machine is stale. Where several names are equally cheap, `pick` chooses one of so many.
pub fn filled(tree: &Tree, pick: &mut dyn FnMut(usize) -> usize) -> Vec<u32> {
    let exits = all_exits(tree);
    let mut words = blank();
    for m in tree.machines_in_use() {
        let costs = node_costs(tree, &exits, m);
        fill_nodes(tree, &exits, &costs, m, pick, &mut words);
        fill_exits(tree, &exits, &costs, m, pick, &mut words);
    }
    words
}

/// Names nodes one by one, each by a node named before it, so that names come to the start.
fn fill_nodes(tree: &Tree, exits: &[Exits], costs: &[Option<u32>], m: usize, pick: &mut dyn FnMut(usize) -> usize, words: &mut [u32]) {
    let start = tree.machine(m).start;
    words[node_row(start)] = 0;
    let mut named = vec![start];
    loop {
        let names: Vec<(usize, Name)> = moves(tree, exits, m)
            .iter()
            .filter(|(u, x, v, _)| named.contains(u) && !named.contains(v) && gives(tree, exits, costs, *v, (*u, *x)))
            .map(|&(u, x, v, _)| (v, (u, x)))
            .collect();
        if names.is_empty() {
            return;
        }
        let (v, (u, x)) = names[pick(names.len())];
        words[node_row(v)..node_row(v) + 3].copy_from_slice(&[costs[v].expect("a reached node"), u as u32, x as u32]);
        named.push(v);
    }
}

fn fill_exits(tree: &Tree, exits: &[Exits], costs: &[Option<u32>], m: usize, pick: &mut dyn FnMut(usize) -> usize, words: &mut [u32]) {
    for x in 0..COMMANDS {
        if let Some(e) = exits[m][x] {
            let lasts: Vec<usize> = tree.nodes_of(m).into_iter().filter(|&n| attains(tree, exits, costs, m, x, n, e)).collect();
            words[machine_row(m) + 1 + x] = e;
            words[machine_row(m) + 17 + x] = lasts[pick(lasts.len())] as u32;
        }
    }
}
