//! Walkers on a book, lent to both calls, by the library and by the model.

use super::layouts::{laid, LAYOUTS};
use super::{BEHIND, UNTOUCHED};
use himm::{raw, Layout, Moved, Refusal};
use himm_model::calls;
use himm_model::tree::Tree;

/// What the words for cost and acting node hold before a command: two different words, so that a refused one that copies them shows.
const UNTOUCHED_WALK: [u32; 2] = [UNTOUCHED + 3, UNTOUCHED + 4];

/// The walkers' states, the node that is limited and the limit.
#[derive(Clone, Debug, PartialEq, Eq)]
pub struct Walkers {
    pub node: u32,
    pub limit: u32,
    pub states: Vec<u32>,
}

impl Walkers {
    pub fn at(node: u32, limit: u32, states: &[u32]) -> Walkers {
        Walkers { node, limit, states: states.to_vec() }
    }

    /// The states with words behind their end, which no call may touch.
    fn lent(&self) -> Vec<u32> {
        [&self.states[..], &[UNTOUCHED; BEHIND]].concat()
    }

    /// The opening by the call for C and by the safe one, in both layouts, on a book by node and what the model reads in it.
    pub fn open(&self, book: &[u32], tree: &Result<Tree, u32>) -> Result<(), Refusal> {
        let expected = tree.as_ref().map_err(|&k| k).and_then(|tree| calls::walkers(tree, self.node, self.limit, &self.states));
        let mut answer = Ok(());
        for layout in LAYOUTS {
            let call = if layout == Layout::ByNode { raw::himm_walkers } else { raw::himm_walkers_by_command };
            let (book, lent, count) = (laid(layout, book), self.lent(), self.states.len());
            let number = unsafe { call(book.as_ptr(), book.len(), self.node, self.limit, lent.as_ptr(), count) };
            assert_eq!(number, expected.err().unwrap_or(0), "the opening of {self:?}, {layout:?}");
            assert!(lent == self.lent(), "the opening of {self:?} wrote, {layout:?}");
            answer = layout.walkers(&book, self.node, self.limit, &self.states);
            assert_eq!(answer.map_err(Refusal::number), expected, "the opening of {self:?}, {layout:?}");
        }
        answer
    }

    /// A walker command, likewise: what it returns, the words for cost and acting node and every walker's state are the model's.
    pub fn walk(&mut self, book: &[u32], tree: &Result<Tree, u32>, walker: u32, command: u32) -> Result<Moved, Refusal> {
        let (before, mut after) = (self.clone(), self.clone());
        let expected = tree.as_ref().map_err(|&k| k);
        let expected = expected.and_then(|tree| calls::walk(tree, self.node, self.limit, &mut after.states, walker, command));
        let moved = expected.map(|to| Moved { state: to.state as u32, cost: to.cost, node: to.node as u32 });
        let words = expected.map_or_else(|k| (k, UNTOUCHED_WALK), |to| (0, [to.cost, to.node as u32]));
        for layout in LAYOUTS {
            let (book, what) = (laid(layout, book), format!("walker {walker} by {command} of {before:?}, {layout:?}"));
            let mut lent = before.lent();
            assert_eq!(before.walk_raw(layout, &book, &mut lent, walker, command), words, "{what}");
            assert!(lent == after.lent(), "{what}: {lent:?}");
            self.states.clone_from(&before.states);
            let safe = layout.walk(&book, self.node, self.limit, &mut self.states, walker, command);
            assert_eq!(safe.map_err(Refusal::number), moved, "{what}");
            assert_eq!(*self, after, "{what}");
        }
        moved.map_err(|number| Refusal::of(number).expect("a refusal"))
    }

    /// What the call for C returns in a layout, and what it leaves in the words for cost and acting node; the states are lent.
    fn walk_raw(&self, layout: Layout, book: &[u32], lent: &mut [u32], walker: u32, command: u32) -> (u32, [u32; 2]) {
        let call = if layout == Layout::ByNode { raw::himm_walk } else { raw::himm_walk_by_command };
        let (states, count, [mut cost, mut acted]) = (lent.as_mut_ptr(), self.states.len(), UNTOUCHED_WALK);
        let (b, node, limit) = ((book.as_ptr(), book.len()), self.node, self.limit);
        let number = unsafe { call(b.0, b.1, node, limit, states, count, walker, command, &mut cost, &mut acted) };
        (number, [cost, acted])
    }

    /// Both calls, with the walkers as they are: the command refuses what the opening does. Gives the command's refusal or 0.
    pub fn both(&self, book: &[u32], tree: &Result<Tree, u32>, walker: u32, command: u32) -> u32 {
        let (opened, answer) = (self.open(book, tree), self.clone().walk(book, tree, walker, command));
        assert!(opened.is_ok() || opened.err() == answer.err(), "walker {walker} by {command} of {self:?}");
        answer.err().map_or(0, Refusal::number)
    }
}
