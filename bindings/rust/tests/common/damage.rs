//! Ways to damage a book, and each call on one.

use super::walkers::Walkers;
use super::{Holding, View};
use himm_model::book::{hold_at, leave_at, machine_at, node_at};
use himm_model::random::Random;
use himm_model::{COMMANDS, MACHINES, NODES};

/// Words that a field may be given instead of its own.
pub fn words(random: &mut Random, old: u32) -> Vec<u32> {
    let mut all = vec![0, 65535, u32::MAX, old ^ 1, old.wrapping_add(65536), old.wrapping_add(1), old.wrapping_sub(1)];
    all.extend([random.below(NODES) as u32, (random.below(NODES) as u32) << 16, random.word() as u32]);
    all.retain(|&word| word != old);
    all
}

/// Copies a root, holder, start, owner, machine below, transition, cost of leaving or a whole record over another of its kind, or turns a
/// hold round.
pub fn copy_a_field(random: &mut Random, book: &mut [u32]) {
    let (m, n) = (machine_at(random.below(MACHINES)), machine_at(random.below(MACHINES)));
    let (u, v) = (node_at(random.below(NODES)), node_at(random.below(NODES)));
    match random.below(10) {
        0 => book[0] = random.below(MACHINES) as u32,
        1 => book[m] = book[n],
        2 => book[m + 1] = book[n + 1],
        3 => book[u] = book[v],
        4 => book[u + 1] = book[v + 1],
        5 => book[u + 2 + random.below(COMMANDS)] = book[v + 2 + random.below(COMMANDS)],
        6 => book.copy_within(v..v + 18, u),
        7 => book[hold_at(random.below(NODES))] ^= 1,
        8 => book[leave_at(random.below(MACHINES))] = book[leave_at(random.below(MACHINES))],
        _ => book.copy_within(n..n + 2, m),
    }
}

/// Machine m with the one node m, which holds machine `below`.
pub fn put_over(book: &mut [u32], m: usize, below: usize) {
    book[machine_at(below)] = m as u32;
    book[machine_at(m) + 1] = m as u32;
    book[node_at(m)] = m as u32;
    book[node_at(m) + 1] = below as u32;
}

/// Each call on a book and its sheet, compared with the model; the arguments are good ones for the mast book.
pub fn each_call(holding: &Holding, view: &View) {
    holding.compare_exit(view, 0, 1);
    holding.compare_step(view, 0, 2);
    holding.compare_plan(view, 0, 2, himm::PLAN_BYTES);
    holding.compare_write(view);
    holding.compare_choice(view, 0, 2, &[0, 2, 1], &[2]);
    holding.clone().load(&[himm::REFRESH]);
    holding.clone().open_table(&[0, 65535, 1]);
    Walkers::at(1, 1, &[0, 10]).both(&holding.book, &view.book, 0, 2);
}

/// Every call that reads a book, on a book that is torn: 2, and nothing is written.
pub fn refused_by_each_call(torn: &Holding, good: &[u32]) {
    let view = torn.view();
    assert_eq!((view.book.as_ref().err(), view.whole.as_ref().err()), (Some(&2), Some(&2)));
    each_call(torn, &view);
    assert_eq!(torn.clone().load(&[]).number, 2);
    for (first, second) in [(&torn.book[..], good), (good, &torn.book[..]), (&torn.book, &torn.book)] {
        assert_eq!(Holding::untouched().merge(first, second), 2);
    }
}
