//! How much stack each call uses: it runs on a stack of the test's own, painted before, and what is overwritten counts. The header's number
//! must hold with reserve, in both layouts. `cargo test --test stack -- --nocapture` prints the bytes.
#![cfg(target_arch = "x86_64")]

mod common;

use common::layouts::{laid, LAYOUTS};
use common::{states, Holding};
use himm::{Layout, Reading, Timing};
use himm_model::random::{Costs, Growth, Random, Shape};
use std::arch::asm;
use std::hint::black_box;

const HEADER: &str = include_str!("../../../include/himm.h");

/// What the stack is painted with, and its words: a megabyte.
const PAINT: u64 = 0x7061_696e_7465_6421;
const WORDS: usize = 1 << 17;

/// The words of a turned book, in bytes.
const A_BOOK: usize = 4 * himm::BOOK_WORDS;

/// What the header allows beyond what the calls may use here.
const RESERVE: usize = 16 * 1024;

/// The bytes that the header allows, less the reserve.
fn allowed() -> usize {
    let (before, _) = HEADER.split_once(" kilobytes of stack").expect("the header's sentence");
    let number: usize = before.rsplit(' ').next().and_then(|word| word.parse().ok()).expect("a number");
    number * 1024 - RESERVE
}

/// How many bytes of a painted stack some work overwrites. The work must not panic.
fn depth<T, Work: FnMut() -> T>(mut work: Work) -> usize {
    extern "C" fn run<T, Work: FnMut() -> T>(work: *mut Work) {
        // SAFETY: the work is alive until the call returns, and nothing else refers to it.
        black_box(unsafe { (*work)() });
    }
    let mut stack = vec![PAINT; WORDS];
    let top = stack.as_mut_ptr_range().end as usize / 16 * 16;
    // SAFETY: the stack is a megabyte of memory of our own; r12 is kept by every function.
    unsafe {
        asm!("mov r12, rsp", "mov rsp, {top}", "call {run}", "mov rsp, r12", top = in(reg) top,
            run = in(reg) run::<T, Work> as extern "C" fn(*mut Work), in("rdi") &mut work, out("r12") _, clobber_abi("C"));
    }
    8 * stack.iter().skip_while(|&&word| word == PAINT).count()
}

/// Holdings on which the calls go deep: refreshed books, eight levels among them.
fn holdings() -> Vec<Holding> {
    let chain = Shape { growth: Growth::EvenChain, machines: 8, filled: 30, holds: 10, leaves: 50, ..Shape::full() };
    let few = Shape { costs: Costs::Few, nodes: 40, ..chain };
    let random = [Shape::longest(), chain, few].map(|shape| Holding::random(&mut Random::new(5), &shape));
    let mut ladder = Holding::ladder();
    ladder.load(&[himm::REFRESH]);
    [ladder, through_all_levels()].into_iter().chain(random).collect()
}

/// Eight levels of refined start nodes. From state 30 a plan to state 20 enters the lowest and leaves all of them by one command.
fn through_all_levels() -> Holding {
    let chain: Vec<u8> = (0..7).flat_map(|k| [0x12, 0, k, k + 1, 0, k + 1]).collect();
    let through = [0x11, 0, 0, 20, 0x11, 0, 0, 30, 0x14, 0, 30, 0, 0, 0, 0, 1, 0x14, 0, 0, 1, 0, 20, 0, 1];
    Holding::loaded(&[&chain[..], &through].concat())
}

/// A stream of every command, some of them refused by most books, each with a refresh behind it.
fn streams(holding: &Holding) -> Vec<Vec<u8>> {
    let mut out = vec![0; himm::STREAM_BYTES];
    let whole = himm::write(&holding.book, &mut out).expect("a well-formed book");
    let edits =
        [&[0x10, 0, 0, 0][..], &[0x17, 63, 0, 255], &[0x16, 0, 1], &[0x13, 0, 2], &[0x1A, 0, 1, 1], &[0x1B, 1, 0, 5], &[0x15, 0, 1, 0]];
    edits.iter().chain([&whole]).map(|edit| [edit, &[himm::REFRESH][..]].concat()).collect()
}

/// The most of several depths.
fn deepest(depths: impl IntoIterator<Item = usize>) -> usize {
    depths.into_iter().max().unwrap_or(0)
}

/// Every call that may write a holding.
fn writing(layout: Layout, holding: &Holding) -> [(&'static str, usize); 5] {
    let (rows, mut all) = (himm_model::table::ladder(6), holding.clone());
    let small = laid(layout, &Holding::fresh().book);
    let (fresh, first) = (Holding::untouched(), laid(layout, &holding.book));
    let (mut book, mut sheet) = (fresh.book, fresh.sheet);
    let load = deepest(streams(holding).iter().map(|stream| {
        all.clone_from(holding);
        let mut words = laid(layout, &all.book);
        depth(|| layout.load(&mut words, &mut all.sheet, stream))
    }));
    [
        ("load", load),
        ("open_fresh", depth(|| layout.open_fresh(&mut book, &mut sheet))),
        ("open_ladder", depth(|| layout.open_ladder(&mut book, &mut sheet))),
        ("open_table", depth(|| layout.open_table(&rows, &mut book, &mut sheet))),
        ("merge", deepest([&first, &small].map(|second| depth(|| layout.merge(&small, second, &mut book, &mut sheet))))),
    ]
}

/// Every call that only reads one.
fn reading(layout: Layout, holding: &Holding) -> [(&'static str, usize); 7] {
    let (b, s, states) = (laid(layout, &holding.book), &holding.sheet, states(&holding.tree()));
    let (first, last) = (states[0], states[states.len() - 1]);
    let (mut plan, mut out, list) = ([0; himm::PLAN_BYTES], vec![0; himm::STREAM_BYTES], [0, 1, 2, 1, 0, 3]);
    let mut walkers = [first, last, first];
    let some: Vec<u32> = states.iter().copied().step_by(1 + states.len() / 12).collect();
    let pairs = some.iter().flat_map(|&from| some.iter().map(move |&to| (from, to)));
    [
        ("plan", deepest(pairs.map(|(from, to)| depth(|| layout.plan(&b, s, from, to, &mut plan).is_ok())))),
        ("exit", depth(|| layout.exit(&b, s, 1, 0))),
        ("step", depth(|| layout.step(&b, last, 0))),
        ("write", depth(|| layout.write(&b, &mut out).is_ok())),
        ("choose", depth(|| layout.choose(&b, first, last, &list, &list[1..]).is_ok())),
        ("walkers", depth(|| layout.walkers(&b, first, 3, &walkers))),
        ("walk", depth(|| layout.walk(&b, first, 3, &mut walkers, 1, 0))),
    ]
}

#[test]
fn every_call_that_is_lent_a_book() {
    let holdings = holdings();
    for layout in LAYOUTS {
        let all: Vec<_> = holdings.iter().flat_map(|h| writing(layout, h).into_iter().chain(reading(layout, h))).collect();
        for name in all[..12].iter().map(|&(name, _)| name) {
            let most = deepest(all.iter().filter(|(other, _)| *other == name).map(|&(_, depth)| depth));
            println!("{name:<12} {layout:?}: {most} bytes");
            assert!(most < allowed(), "{name}, {layout:?}: {most} bytes of stack");
            assert!(layout == Layout::ByNode || most > A_BOOK, "{name}: {most} bytes, less than a turned book");
        }
    }
}

#[test]
fn the_other_calls() {
    let (book, mut out, mut bytes) = (Holding::ladder().book, vec![0; himm::BOOK_WORDS], [0; himm::IMPORT_BYTES]);
    let timing = Timing { reading: Reading::Taken(1.5), dead_time: 0.25 };
    let all = [
        ("by_command", depth(|| himm::by_command(&book, &mut out))),
        ("by_node", depth(|| himm::by_node(&book, &mut out))),
        ("ladder", depth(|| himm::ladder(6, &mut out).is_ok())),
        ("import", depth(|| himm::import(1, 1, 2, timing, &mut bytes).is_ok())),
    ];
    for (name, depth) in all {
        println!("{name:<12} {depth} bytes");
        assert!(depth < 4096, "{name}: {depth} bytes of stack");
    }
}

/// The measure sees a list of a known length.
#[test]
fn a_list_of_a_known_length() {
    let depth = depth(|| black_box(&[black_box(1u32); 10_000])[9_999]);
    assert!((40_000..44_000).contains(&depth), "{depth} bytes");
}
