//! A second implementation of the planner, written from documents 01 and 02, with the readings of docs/DECISIONS.md where they leave a
//! choice. It shares no code with the proved library. The tests of the bindings and the benchmark compare the library with it. It is
//! written to be read, not to be fast; only `flat` is meant to be fast.

pub mod book;
pub mod calls;
pub mod choose;
pub mod flat;
pub mod import;
pub mod layout;
pub mod merge;
pub mod random;
pub mod sheet;
pub mod stream;
pub mod table;
pub mod tree;
pub mod walk;
pub mod write;

pub const MACHINES: usize = 64;
pub const NODES: usize = 256;
pub const COMMANDS: usize = 16;
pub const LEVELS: usize = 8;
pub const WALKERS: usize = 8;
pub const BOOK_WORDS: usize = 5057;
pub const SHEET_WORDS: usize = 2880;
pub const ROW_WORDS: usize = 3;
pub const TABLE_WORDS: usize = 567;
pub const LARGEST_DEPTH: u32 = 6;
pub const STREAM_BYTES: usize = 34938;
pub const LIST_COMMANDS: usize = 65536;

/// A number that is not there.
pub const ABSENT: u32 = 65535;
/// A transition or a cost that is not there.
pub const BLANK: u32 = u32::MAX;
