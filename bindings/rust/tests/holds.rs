//! Holds, with the numbers written out: the mast book with held nodes, refusals and marks, torn holds, merges.

mod common;

use common::damage::{each_call, refused_by_each_call};
use common::{answer, chain_of_pairs, exits, hex, hold, mast, plan, Holding, MAST};
use himm::{Chosen, Moved, Refusal, Which};
use himm_model::book::{hold_at, leave_at, machine_at, node_at};
use himm_model::sheet::is_stale;
use himm_model::{BLANK, LEVELS, MACHINES, NODES};

/// The refusal of a held start.
const HELD_START: u32 = 21;

/// Node 11 of the mast book held, and nodes 1 and 2, as commands.
const HOLD_11: &str = "1A 000B 01";
const HOLD_1: &str = "1A 0001 01";
const HOLD_2: &str = "1A 0002 01";

/// The nodes that have a 1 among the book's holds; all others have 0.
fn held_in(book: &[u32]) -> Vec<usize> {
    let words = &book[hold_at(0)..leave_at(0)];
    assert!(words.len() == NODES && words.iter().all(|&word| word <= 1));
    (0..NODES).filter(|&n| words[n] == 1).collect()
}

// The mast book.

/// State 10 by command 2: its own transition to 11 until that is held; then that of node 1, if it has one, and else a stop.
#[test]
fn a_command_climbs_past_a_shut_transition() {
    let step = |more: &str| himm::step(&mast(more).book, 10, 2);
    let arrow = "14 0001 02 0002 0006";
    assert_eq!(step(arrow), Ok(Moved { state: 11, cost: 4, node: 10 }));
    assert_eq!(step(&[arrow, HOLD_11].concat()), Ok(Moved { state: 2, cost: 6, node: 1 }));
    assert_eq!(step(&[HOLD_11, arrow].concat()), Ok(Moved { state: 2, cost: 6, node: 1 }));
    assert_eq!(step(HOLD_11), Err(Refusal::Stops));
    assert_eq!(step(&[arrow, HOLD_11, HOLD_2].concat()), Err(Refusal::Stops));
    assert_eq!(step(&[arrow, HOLD_11, "1A 000B 00"].concat()), Ok(Moved { state: 11, cost: 4, node: 10 }));
}

/// A held node's transition to itself is shut, from the node and from below it, and the command climbs on.
#[test]
fn a_held_node_does_not_come_back_to_itself() {
    let step = |state: u32, x: u32, more: &str| himm::step(&mast(more).book, state, x);
    let plain = "14 000B 03 000B 0001";
    assert_eq!(step(11, 3, plain), Ok(Moved { state: 11, cost: 1, node: 11 }));
    assert_eq!(step(11, 3, &[plain, HOLD_11].concat()), Err(Refusal::Stops));
    assert_eq!(step(11, 3, &[plain, HOLD_11, "14 0001 03 0002 0009"].concat()), Ok(Moved { state: 2, cost: 9, node: 1 }));
    let refined = "14 0001 04 0001 0002";
    assert_eq!(step(11, 4, refined), Ok(Moved { state: 10, cost: 2, node: 1 }));
    assert_eq!(step(11, 4, &[refined, HOLD_1].concat()), Err(Refusal::Stops));
}

/// A station at a held node, or below one, takes the node's transitions as before.
#[test]
fn a_station_inside_leaves() {
    let held = mast(&[HOLD_1, HOLD_2].concat());
    assert_eq!(himm::step(&held.book, 2, 0), Ok(Moved { state: 0, cost: 7, node: 2 }));
    assert_eq!((himm::step(&held.book, 11, 1), himm::step(&held.book, 0, 0)), (Err(Refusal::Stops), Err(Refusal::Stops)));
    let above = mast(HOLD_1);
    assert_eq!(himm::step(&above.book, 11, 1), Ok(Moved { state: 2, cost: 3, node: 1 }));
    assert_eq!(himm::step(&above.book, 10, 2), Ok(Moved { state: 11, cost: 4, node: 10 }));
}

/// Round the held node at cost 20 in place of 12, and no way once the way round is cleared.
#[test]
fn plans_round_a_held_node() {
    let held = mast(HOLD_11);
    assert_eq!((plan(&held, 0, 2), plan(&held, 0, 10)), (Ok((20, vec![2])), Ok((5, vec![0]))));
    assert_eq!(plan(&mast(&[HOLD_11, "15 0000 02"].concat()), 0, 2), Err(Refusal::NoWay));
    assert_eq!(plan(&mast(&[HOLD_11, "15 0000 02", "1A 000B 00"].concat()), 0, 2), Ok((12, vec![0, 2, 1])));
}

/// No list leads to a held state but the empty one.
#[test]
fn plans_to_a_held_state() {
    let held = mast(&[HOLD_11, HOLD_2].concat());
    for from in [0, 2, 10, 11] {
        for to in [2, 11] {
            assert_eq!(plan(&held, from, to), if from == to { Ok((0, vec![])) } else { Err(Refusal::NoWay) }, "plan {from} {to}");
        }
    }
}

/// A station at a held node, or below one, leaves as before; it does not come back.
#[test]
fn plans_from_inside_a_held_node() {
    let held = mast(HOLD_11);
    assert_eq!((plan(&held, 11, 2), plan(&held, 11, 10)), (Ok((3, vec![1])), Ok((15, vec![1, 0, 0]))));
    let above = mast(HOLD_1);
    assert_eq!((plan(&above, 10, 11), plan(&above, 10, 2)), (Ok((4, vec![2])), Ok((7, vec![2, 1]))));
    assert_eq!((plan(&above, 11, 0), plan(&above, 0, 2)), (Ok((10, vec![1, 0])), Ok((20, vec![2]))));
    assert_eq!([(0, 10), (2, 11), (11, 10)].map(|(a, b)| plan(&above, a, b)), [const { Err(Refusal::NoWay) }; 3]);
}

/// With 11 held, machine 1 is left by command 2 from 10 at once, and not by command 1, which 10's own transition catches.
#[test]
fn exit_costs() {
    let held = mast(HOLD_11);
    assert_eq!(exits(&held, 1), [Ok(0), Err(Refusal::NoWay), Ok(0)]);
    assert_eq!(exits(&held, 0), [Ok(5), Ok(0), Ok(5)]);
    let above = mast(HOLD_1);
    assert_eq!(exits(&above, 1), [Ok(0), Ok(4), Ok(4)]);
    assert_eq!(exits(&above, 0), [Ok(0), Ok(0), Ok(20)]);
}

/// A held state is still a state: 4 of them need a plan buffer of 3 bytes, and 15 comes before 16.
#[test]
fn held_states_count() {
    let held = mast(&[HOLD_11, HOLD_2].concat());
    let room = |to: u32, bytes: usize| himm::plan(&held.book, &held.sheet, 0, to, &mut vec![0; bytes]).map(|p| p.cost);
    assert_eq!((room(10, 3), room(10, 2)), (Ok(5), Err(Refusal::BufferTooShort)));
    assert_eq!((room(2, 3), room(2, 2)), (Err(Refusal::NoWay), Err(Refusal::BufferTooShort)));
}

/// The list that leads over a held node does not arrive.
#[test]
fn choices() {
    let (first, second) = ([0, 2, 1], [2]);
    let choose = |more: &str| himm::choose(&mast(more).book, 0, 2, &first, &second).map(|Chosen { which, part }| (which, part.len()));
    assert_eq!(choose(""), Ok((Which::First, 3)));
    assert_eq!(choose(HOLD_11), Ok((Which::Second, 1)));
    assert_eq!(choose(HOLD_2), Err(Refusal::NeitherArrives));
}

/// The holds come last, by node, and Load takes them back.
#[test]
fn written_bytes() {
    let held = mast("1A 000B 01 1A 0001 01 1A 0002 01 1A 0001 00");
    let (stream, mut out) = (hex(&[MAST, HOLD_2, HOLD_11].concat()), [0; 78]);
    assert_eq!(himm::write(&held.book, &mut out), Ok(&stream[..]));
    assert_eq!(himm::write(&held.book, &mut out[..77]), Err(Refusal::BufferTooShort));
    held.compare_round_trip(&mut mast("1A 0001 01"));
    assert_eq!(held_in(&held.book), [2, 11]);
}

/// What goes loses its hold, by remove and begin; a refined node keeps its own, and so do all under a crown; a new node has none.
#[test]
fn holds_that_go_and_stay() {
    let after = |more: &str| {
        let mut holding = mast(&[HOLD_1, HOLD_2, HOLD_11].concat());
        assert_eq!(holding.load(&hex(more)).number, 0, "{more}");
        held_in(&holding.book)
    };
    assert_eq!(after(""), [1, 2, 11]);
    assert_eq!((after("13 000B"), after("13 000B 11 01 000B")), (vec![1, 2], vec![1, 2]));
    assert_eq!((after("13 0001"), after("13 0001 11 00 000B 11 00 0001")), (vec![2], vec![2]));
    assert_eq!((after("10 00 0000"), after("10 05 0002 11 05 0001 11 05 000B")), (vec![], vec![]));
    assert_eq!((after("12 0002 02 0014"), after("12 000B 02 0014 12 0014 03 0015")), (vec![1, 2, 11], vec![1, 2, 11]));
    assert_eq!((after("17 09 0063"), after("17 09 0063 11 09 0064")), (vec![1, 2, 11], vec![1, 2, 11]));
    assert_eq!((after("14 0000 05 0002 0001"), after("15 0001 01")), (vec![1, 2, 11], vec![1, 2, 11]));
    assert_eq!(after("1A 0001 00 1A 0002 00 16 0002 1A 0000 01"), [0, 11]);
}

// Refusals and marks.

#[test]
fn held_starts() {
    assert_eq!((answer("1A 0000 01"), answer("1A 000A 01")), ((0, 0, HELD_START), (0, 0, HELD_START)));
    assert_eq!(answer("1A 0002 01 16 0002"), (4, 1, HELD_START));
    assert_eq!(answer("1A 0001 01 18 16 0001"), (5, 2, HELD_START));
    assert_eq!(answer("16 0002 1A 0002 01"), (3, 1, HELD_START));
    assert_eq!(answer("12 0002 02 0014 1A 0014 01"), (6, 1, HELD_START));
    assert_eq!(answer("17 09 0063 1A 0063 01"), (4, 1, HELD_START));
    assert_eq!(answer("10 05 0003 1A 0003 01"), (4, 1, HELD_START));
    assert_eq!(answer("1A 0002 01 1A 0002 00 16 0002 1A 0000 01 1A 0002 00"), (19, 5, 0));
}

/// A start released, a held node held and one that is not held released.
#[test]
fn holds_that_change_nothing() {
    assert_eq!((answer("1A 0000 00"), answer("1A 000A 00"), answer("1A 0002 00")), ((4, 1, 0), (4, 1, 0), (4, 1, 0)));
    assert_eq!((answer("1A 0002 01 1A 0002 01"), answer("1A 0001 00 1A 0001 00")), ((8, 2, 0), (8, 2, 0)));
}

/// 5, 4, 6, 7 and 21 in this order, whichever of the later ones hold too.
#[test]
fn refusals_in_their_order() {
    for cut in ["1A", "1A 00", "1A 0000", "1A 0100", "1A 0003"] {
        assert_eq!(answer(cut), (0, 0, 4), "{cut}");
    }
    for range in ["1A 0100 01", "1A 0100 00", "1A FFFF 01", "1A 0100 02", "1A 0002 02", "1A 0002 FF", "1A 0000 02", "1A 0003 02"] {
        assert_eq!(answer(range), (0, 0, 6), "{range}");
    }
    for unused in ["1A 0003 01", "1A 0003 00", "1A 00FF 01", "1A 0002 01 13 0002 1A 0002 00", "1A 0002 01 13 0002 16 0002"] {
        assert_eq!(answer(unused).2, 7, "{unused}");
    }
    for opcode in [0x19].into_iter().chain(0x1C..=0xFF) {
        assert_eq!(answer(&format!("{opcode:02X} 0002 01 00 00 00 00")), (0, 0, 5));
    }
}

/// A hold or release of 0, 1 or 2 marks machine 0, one of 10 or 11 machines 1 and 0, also where it changes nothing.
#[test]
fn marks() {
    let all = [(1, 0, false), (2, 0, false), (0, 0, false), (10, 0, true), (11, 0, true), (1, 1, false), (2, 1, false), (11, 1, true)];
    for more in ["", "1A 0001 01 1A 0002 01 1A 000B 01"] {
        for (node, byte, below) in all {
            let mut holding = mast(more);
            assert_eq!(holding.load(&hold(node, byte)).number, 0);
            assert_eq!([0, 1].map(|m| is_stale(&holding.sheet, m)), [true, below], "hold {byte} on {node} after {more}");
        }
    }
}

/// In a chain of eight levels with two nodes in each machine, a hold marks the machine of its node and those above it, and no other.
#[test]
fn marks_of_all_above() {
    let good = chain_of_pairs();
    for level in 0..LEVELS {
        for (node, byte) in [(100 + level, 1), (100 + level, 0), (level, 0)] {
            let mut holding = good.clone();
            assert_eq!(holding.load(&hold(node, byte)).number, 0);
            let stale: Vec<usize> = (0..MACHINES).filter(|&m| is_stale(&holding.sheet, m)).collect();
            assert_eq!(stale, (0..=level).collect::<Vec<_>>(), "hold {byte} on {node}");
        }
    }
}

// Torn holds.

/// Each hold of the mast book as another word: over 1 it is torn, and so is 1 at a start or at a node that is not in use.
#[test]
fn torn_holds() {
    let (good, two) = (mast(""), mast(&[HOLD_2, HOLD_11].concat()));
    for holding in [&good, &two] {
        for n in 0..NODES {
            let mut torn = holding.clone();
            for word in [2, 3, 255, 256, 65535, 65536, 65537, 0x8000_0001, u32::MAX] {
                torn.book[hold_at(n)] = word;
                refused_by_each_call(&torn, &good.book);
            }
            torn.book[hold_at(n)] = 1;
            if ![1, 2, 11].contains(&n) {
                refused_by_each_call(&torn, &good.book);
            }
        }
    }
}

/// A start moved onto a held node in the words of the book, and a held node whose record is emptied with the transition into it.
#[test]
fn torn_around_a_hold() {
    let good = mast(&[HOLD_2, HOLD_11].concat());
    let (mut moved, mut emptied) = (good.clone(), good.clone());
    moved.book[machine_at(0) + 1] = 2;
    refused_by_each_call(&moved, &good.book);
    emptied.book.copy_within(node_at(12)..node_at(13), node_at(11));
    emptied.book[node_at(10) + 2 + 2] = BLANK;
    refused_by_each_call(&emptied, &good.book);
    emptied.book[hold_at(11)] = 0;
    assert_eq!(emptied.view().book.err(), None);
}

/// A hold that is put into the words of a book, or taken out, without a mark: the book is good, and its sheet is false where it matters.
#[test]
fn holds_without_marks() {
    let mut holding = mast("");
    holding.book[hold_at(11)] = 1;
    assert_eq!(holding.view().whole.err(), Some(3));
    each_call(&holding, &holding.view());
    assert_eq!(himm::step(&holding.book, 10, 2), Err(Refusal::Stops));
    let mut holding = mast(HOLD_11);
    holding.book[hold_at(11)] = 0;
    assert_eq!(holding.view().whole.err(), Some(3));
    each_call(&holding, &holding.view());
}

/// A book of the length that it had before holds: 1 by each call. With zeros put at its end it is the book again.
#[test]
fn a_book_without_holds() {
    let good = mast("");
    let mut short = good.clone();
    short.book.truncate(hold_at(0));
    assert_eq!((short.book.len(), short.view().book.err()), (4737, Some(1)));
    each_call(&short, &short.view());
    assert_eq!((Holding::untouched().merge(&short.book, &good.book), Holding::untouched().merge(&good.book, &short.book)), (1, 1));
    short.book.resize(himm::BOOK_WORDS, 0);
    assert!(short == good);
}

// Merges.

/// The mast book with 2 and 11 held, merged with itself: the twin's nodes 2 and 11 are 5 and 7.
#[test]
fn two_masts() {
    let held = mast(&[HOLD_2, HOLD_11].concat()).book;
    let (plain, mut third) = (mast("").book, Holding::untouched());
    let all = [(&held, &held, &[2, 5, 7, 11][..]), (&held, &plain, &[2, 11]), (&plain, &held, &[5, 7]), (&plain, &plain, &[])];
    for (first, second, holds) in all {
        assert_eq!(third.merge(first, second), 0);
        assert_eq!(held_in(&third.book), holds);
    }
}

/// What the merged book of two held ones answers: plans round the held nodes of both halves, and 21 for the new root's start.
#[test]
fn plans_of_two_masts() {
    let (held, mut third) = (mast(HOLD_11).book, Holding::untouched());
    assert_eq!(third.merge(&held, &held), 0);
    assert_eq!(third.load(&[himm::REFRESH]).number, 0);
    assert_eq!((plan(&third, 0, 2), plan(&third, 3, 5)), (Ok((20, vec![2])), Ok((20, vec![2]))));
    assert_eq!((plan(&third, 10, 11), plan(&third, 6, 7)), (Err(Refusal::NoWay), Err(Refusal::NoWay)));
    assert_eq!((plan(&third, 11, 2), plan(&third, 7, 5)), (Ok((3, vec![1])), Ok((3, vec![1]))));
    assert_eq!((third.load(&hold(8, 1)).number, third.load(&hold(9, 1)).number), (HELD_START, 0));
}
