//! The second layout of a book, by command: document 02, W-209. The words are not looked at, only moved.

use crate::book::{hold_at, node_at};
use crate::{BOOK_WORDS, COMMANDS, NODES};

/// How many words of a node's record stand before its transitions: its machine and the machine below it.
const BEFORE: usize = 2;

/// A book by node turned: first the words of all transitions for command 0, then those for command 1, and so on; then the other words in
/// their old order, which are those before the nodes' records, the two words of each record that are left, and those behind the records.
pub fn by_command(book: &[u32]) -> Vec<u32> {
    assert_eq!(book.len(), BOOK_WORDS);
    let (front, rest) = book.split_at(node_at(0));
    let (records, back) = rest.split_at(hold_at(0) - node_at(0));
    let records: Vec<&[u32]> = records.chunks(BEFORE + COMMANDS).collect();
    let mut words = vec![];
    for command in 0..COMMANDS {
        words.extend(records.iter().map(|record| record[BEFORE + command]));
    }
    words.extend(front);
    words.extend(records.iter().flat_map(|record| &record[..BEFORE]));
    words.extend(back);
    words
}

/// A book by command turned back: the transitions of each node behind the other two words of its record.
pub fn by_node(words: &[u32]) -> Vec<u32> {
    assert_eq!(words.len(), BOOK_WORDS);
    let (transitions, rest) = words.split_at(COMMANDS * NODES);
    let (front, rest) = rest.split_at(node_at(0));
    let (others, back) = rest.split_at(NODES * BEFORE);
    let mut book = front.to_vec();
    for (node, pair) in others.chunks(BEFORE).enumerate() {
        book.extend(pair);
        book.extend(transitions.chunks(NODES).map(|one_command| one_command[node]));
    }
    book.extend(back);
    book
}
