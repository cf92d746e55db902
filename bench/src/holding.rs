//! The books that are measured, and a library's calls on them, timed.

use crate::library::Library;
use crate::timing::{timed, Times};
use himm_model::random::{self, Random, Shape};
use himm_model::stream::{Command, Station};
use himm_model::tree::Tree;
use himm_model::{book, COMMANDS, NODES, STREAM_BYTES};

/// Room for every plan.
pub const PLAN_BYTES: usize = NODES - 1;

/// The refusals that the checks end in.
const WRONG_LENGTH: u32 = 1;
const OUT_OF_RANGE: u32 = 6;

/// A book and its sheet in one library, and the tree that the model has for them.
#[derive(Clone)]
pub struct Holding {
    pub library: &'static Library,
    pub book: Vec<u32>,
    pub sheet: Vec<u32>,
    pub tree: Tree,
}

/// A stream with a refresh after it.
pub fn then_refresh(stream: &[u8]) -> Vec<u8> {
    [stream, &Command::Refresh.bytes()].concat()
}

impl Holding {
    /// A tree's book with a stream loaded into it; it is the book that the model comes to, or the front of it in an older library.
    fn opened(library: &'static Library, ladder: bool, stream: &[u8]) -> Holding {
        let (mut words, mut sheet) = (vec![0; library.book_words], vec![0; library.sheet_words]);
        let open = if ladder { Library::open_ladder } else { Library::open_fresh };
        open(library, &mut words, &mut sheet).expect("right lengths");
        library.load(&mut words, &mut sheet, stream).expect("a good stream");
        let mut station = Station::stale(if ladder { Tree::ladder() } else { Tree::single(0, 0) });
        station.load(stream);
        assert!(book::encode(&station.tree).starts_with(&words), "another book than the model's");
        Holding { library, book: words, sheet, tree: station.tree }
    }

    /// A fresh book.
    pub fn fresh(library: &'static Library) -> Holding {
        Holding::opened(library, false, &[])
    }

    /// The ladder with its sheet refreshed.
    pub fn ladder(library: &'static Library) -> Holding {
        Holding::opened(library, true, &then_refresh(&[]))
    }

    /// A random book with its sheet refreshed.
    pub fn random(library: &'static Library, seed: u64, shape: &Shape) -> Holding {
        let stream = random::bytes(&random::book(&mut Random::new(seed), shape));
        Holding::opened(library, false, &then_refresh(&stream))
    }

    /// The same with every machine stale.
    pub fn stale(&self) -> Holding {
        Holding::opened(self.library, false, &self.stream())
    }

    /// The stream of the book.
    pub fn stream(&self) -> Vec<u8> {
        let mut out = vec![0; STREAM_BYTES];
        let length = self.library.write(&self.book, &mut out).expect("a well-formed book");
        out.truncate(length);
        out
    }

    /// Pairs of states at random.
    pub fn pairs(&self, count: usize) -> Vec<(u32, u32)> {
        let (states, mut random) = (self.tree.states(), Random::new(77));
        (0..count).map(|_| (random.pick(&states) as u32, random.pick(&states) as u32)).collect()
    }

    /// Transitions to set, one command of a stream each, at random nodes, to targets that leave the tree well formed.
    pub fn edits(&self, count: usize, seed: u64) -> Vec<Vec<u8>> {
        let mut random = Random::new(seed);
        let nodes: Vec<usize> = self.tree.machines_in_use().iter().flat_map(|&m| self.tree.nodes_of(m)).collect();
        (0..count).map(|_| self.edit_at(&mut random, &nodes)).collect()
    }

    /// One such edit.
    fn edit_at(&self, random: &mut Random, nodes: &[usize]) -> Vec<u8> {
        let node = random.pick(nodes);
        let target = random.pick(&self.tree.nodes_of(self.tree.node(node).owner));
        Command::Arrow { node, command: random.below(COMMANDS), target, cost: random.below(65536) }.bytes()
    }

    /// A plan's cost; the buffer is filled outside the clock.
    pub fn plan(&self, pair: (u32, u32), times: &mut Times) -> Option<u32> {
        let mut buffer = [0; PLAN_BYTES];
        timed(times, || self.library.plan(&self.book, &self.sheet, pair, &mut buffer)).ok()
    }

    /// A stream loaded into a copy of the holding, which is made outside the clock; gives the words of the book.
    pub fn load(&self, stream: &[u8], times: &mut Times) -> Vec<u32> {
        let (mut words, mut sheet) = (self.book.clone(), self.sheet.clone());
        timed(times, || self.library.load(&mut words, &mut sheet, stream)).expect("a good stream");
        words
    }

    /// A stream loaded into such a copy, and then a plan, whose cost it gives.
    pub fn load_and_plan(&self, stream: &[u8], pair: (u32, u32), times: &mut Times) -> Option<u32> {
        let (mut words, mut sheet, mut buffer) = (self.book.clone(), self.sheet.clone(), [0; PLAN_BYTES]);
        timed(times, || {
            self.library.load(&mut words, &mut sheet, stream).expect("a good stream");
            self.library.plan(&words, &sheet, pair, &mut buffer).ok()
        })
    }

    /// The length of the stream; the output is filled outside the clock, so that its memory is there.
    pub fn write(&self, times: &mut Times) -> usize {
        let mut out = vec![u8::MAX; STREAM_BYTES];
        timed(times, || self.library.write(&self.book, &mut out)).expect("room enough")
    }

    /// The checks of a book alone: a step refused for its command, once the book is checked.
    pub fn check_book(&self, times: &mut Times) {
        assert_eq!(timed(times, || self.library.step(&self.book, 0, COMMANDS as u32)), Err(OUT_OF_RANGE));
    }

    /// The checks of a book and its sheet alone: an exit refused for its command, once both are checked.
    pub fn check_both(&self, times: &mut Times) {
        assert_eq!(timed(times, || self.library.exit(&self.book, &self.sheet, 0, COMMANDS as u32)), Err(OUT_OF_RANGE));
    }

    /// The lengths alone: an exit refused for a book that is a word too short.
    pub fn check_lengths(&self, times: &mut Times) {
        let short = &self.book[1..];
        assert_eq!(timed(times, || self.library.exit(short, &self.sheet, 0, 0)), Err(WRONG_LENGTH));
    }
}
