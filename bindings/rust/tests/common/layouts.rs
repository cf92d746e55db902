//! Books in both layouts, turned by the model.

use himm::Layout;
use himm_model::{layout, BOOK_WORDS};

/// Both layouts; by node is the last, so a holding is what the call by node leaves.
pub const LAYOUTS: [Layout; 2] = [Layout::ByCommand, Layout::ByNode];

/// A book by node in a layout; a list of another length stays as it is.
pub fn laid(into: Layout, book: &[u32]) -> Vec<u32> {
    match into {
        Layout::ByCommand if book.len() == BOOK_WORDS => layout::by_command(book),
        _ => book.to_vec(),
    }
}

/// And back, by node.
pub fn laid_back(from: Layout, book: &[u32]) -> Vec<u32> {
    match from {
        Layout::ByCommand if book.len() == BOOK_WORDS => layout::by_node(book),
        _ => book.to_vec(),
    }
}
