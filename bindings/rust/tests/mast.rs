//! Document 01's own examples, with the numbers written out.

mod common;

use common::{hex, mast, plan, Holding, MAST};
use himm::{Moved, Refusal};

#[test]
fn plans() {
    let mast = mast("");
    assert_eq!(plan(&mast, 0, 2), Ok((12, vec![0, 2, 1])));
    assert_eq!(plan(&mast, 11, 10), Ok((15, vec![1, 0, 0])));
    assert_eq!(plan(&mast, 2, 11), Ok((16, vec![0, 0, 2])));
    assert_eq!(plan(&mast, 0, 0), Ok((0, vec![])));
}

#[test]
fn cleared_transitions() {
    assert_eq!(plan(&mast("15 000A 01"), 0, 2).map(|p| p.0), Ok(8));
    assert_eq!(plan(&mast("15 0001 01"), 0, 2).map(|p| p.0), Ok(20));
    assert_eq!(plan(&mast("15 0001 01 15 0000 02"), 0, 2), Err(Refusal::NoWay));
}

#[test]
fn exit_costs() {
    let mast = mast("");
    let exits = |m| [0, 1, 2].map(|x| himm::exit(&mast.book, &mast.sheet, m, x));
    assert_eq!(exits(1), [Ok(0), Ok(4), Ok(4)]);
    assert_eq!(exits(0), [Ok(5), Ok(0), Ok(9)]);
}

#[test]
fn steps() {
    let mast = mast("");
    assert_eq!(himm::step(&mast.book, 11, 1), Ok(Moved { state: 2, cost: 3, node: 1 }));
    assert_eq!(himm::step(&mast.book, 10, 1), Ok(Moved { state: 10, cost: 1, node: 10 }));
    assert_eq!(himm::step(&mast.book, 11, 0), Err(Refusal::Stops));
    assert_eq!(himm::step(&mast.book, 1, 0), Err(Refusal::NotPlain));
}

/// Every step of a mast book that does not stop: state and command, then the state it leads to, its cost and the node that acts.
fn moves(holding: &Holding) -> Vec<(u32, u32, u32, u32, u32)> {
    let mut all = vec![];
    for state in [0, 2, 10, 11] {
        for command in 0..himm::COMMANDS as u32 {
            if let Ok(to) = himm::step(&holding.book, state, command) {
                all.push((state, command, to.state, to.cost, to.node));
            }
        }
    }
    all
}

/// Node 1 acts where neither 10 nor 11 has a transition of its own; 10's own for command 1 catches it until it is cleared.
#[test]
fn acting_nodes() {
    let above = [(0, 0, 10, 5, 0), (0, 2, 2, 20, 0), (2, 0, 0, 7, 2)];
    assert_eq!(moves(&mast("")), [&above[..], &[(10, 1, 10, 1, 10), (10, 2, 11, 4, 10), (11, 1, 2, 3, 1)]].concat());
    assert_eq!(moves(&mast("15 000A 01")), [&above[..], &[(10, 1, 2, 3, 1), (10, 2, 11, 4, 10), (11, 1, 2, 3, 1)]].concat());
}

#[test]
fn written_bytes() {
    let mut out = [0; 70];
    assert_eq!(himm::write(&mast("").book, &mut out), Ok(&hex(MAST)[..]));
}

#[test]
fn buffers_and_ranges() {
    let mast = mast("");
    let room = |bytes: usize| himm::plan(&mast.book, &mast.sheet, 0, 2, &mut vec![0; bytes]).map(|p| p.cost);
    assert_eq!((room(3), room(2)), (Ok(12), Err(Refusal::BufferTooShort)));
    assert_eq!(himm::step(&mast.book, 255, 0), Err(Refusal::NotInUse));
    assert_eq!(himm::step(&mast.book, 256, 0), Err(Refusal::OutOfRange));
}

#[test]
fn refused_removal() {
    let mut mast = mast("");
    let loaded = himm::load(&mut mast.book, &mut mast.sheet, &hex("18 13 000A 18"));
    assert_eq!((loaded.bytes, loaded.commands, loaded.result), (1, 1, Err(Refusal::StartNode)));
}

#[test]
fn levels() {
    let mut chain = Holding::fresh();
    for k in 0..7 {
        assert_eq!(chain.load(&[0x12, 0, k, k + 1, 0, k + 1]).number, 0);
    }
    assert_eq!(chain.load(&[0x12, 0, 7, 8, 0, 8]).number, 12);
    assert_eq!(chain.load(&[0x17, 8, 0, 8]).number, 12);
    assert_eq!(chain.load(&[0x18]).number, 0);
    assert_eq!(plan(&chain, 7, 7), Ok((0, vec![])));
}

#[test]
fn refusals_by_number() {
    for (at, refusal) in Refusal::ALL.iter().enumerate() {
        assert_eq!(refusal.number() as usize, at + 1);
        assert_eq!(Refusal::of(refusal.number()), Some(*refusal));
    }
    assert_eq!((Refusal::of(0), Refusal::of(25)), (None, None));
}
