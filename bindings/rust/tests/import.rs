//! Import: costs with the numbers written out, floats near every place where a cost changes, the bytes and the output, each refusal and
//! their order, random timings, and what the bytes do to random books. Floats are named by their bits.

mod common;

use common::{compare_import, counts, Holding};
use himm::raw::{HIMM_SECONDS_TAKEN, HIMM_SECONDS_WAITED};
use himm::{Moved, IMPORT_BYTES, REFRESH};
use himm_model::book::node_at;
use himm_model::import::Import;
use himm_model::random::{self, Random, Shape};
use himm_model::tree::Tree;
use himm_model::{BLANK, COMMANDS, NODES};

/// The sign; alone it is minus zero.
const MINUS: u32 = 0x8000_0000;
const ONE: u32 = 0x3f80_0000;
const INFINITY: u32 = 0x7f80_0000;
/// The largest finite float.
const LARGEST: u32 = 0x7f7f_ffff;
/// The smallest normal float. Those below it are subnormal, with 1 as the bits of the smallest.
const NORMAL: u32 = 0x0080_0000;

/// What a taken timing may hold: zeros, subnormal and normal floats.
const GOOD: [u32; 9] = [0, MINUS, 1, NORMAL - 1, NORMAL, 0x3e80_0000, ONE, 0x477f_ff00, LARGEST];
/// No number: quiet and signalling ones, with and without the sign.
const NO_NUMBER: [u32; 8] = [0x7fc0_0000, 0xffc0_0000, 0x7f80_0001, 0xff80_0001, 0x7fbf_ffff, 0xffbf_ffff, 0x7fff_ffff, 0xffff_ffff];
/// Infinite, or below zero.
const OTHER_BAD: [u32; 7] = [INFINITY, MINUS | INFINITY, MINUS | 1, MINUS | NORMAL, MINUS | ONE, 0xc77f_ff00, MINUS | LARGEST];

/// A timing of node 2, command 3 and target 4.
fn taken(seconds: u32, dead_time: u32) -> Import {
    Import { node: 2, command: 3, target: 4, kind: HIMM_SECONDS_TAKEN, seconds, dead_time }
}

/// The same waited for without an end.
fn waited(seconds: u32, dead_time: u32) -> Import {
    Import { kind: HIMM_SECONDS_WAITED, ..taken(seconds, dead_time) }
}

/// The refusal of an import, or 0.
fn refusal(lent: &Import, room: usize) -> u32 {
    compare_import(lent, room).err().unwrap_or(0)
}

/// The cost of a timing, or the refusal.
fn cost(seconds: u32, dead_time: u32) -> Result<u32, u32> {
    let bytes = compare_import(&taken(seconds, dead_time), IMPORT_BYTES)?;
    assert_eq!(bytes[..6], [0x14, 0, 2, 3, 0, 4]);
    Ok(bytes[6] as u32 * 256 + bytes[7] as u32)
}

/// The same of two floats.
fn cost_of(seconds: f32, dead_time: f32) -> Result<u32, u32> {
    cost(seconds.to_bits(), dead_time.to_bits())
}

/// The distance from a float to the next one.
fn step(float: f32) -> f32 {
    f32::from_bits(float.to_bits() + 1) - float
}

#[test]
fn numbers_written_out() {
    let all = [
        ((5.0, 0.0), Ok(5)),
        ((5.25, 0.25), Ok(5)),
        ((5.5, 0.25), Ok(6)),
        ((5.0, 0.25), Ok(5)),
        ((0.25, 0.25), Ok(0)),
        ((0.5, 0.25), Ok(1)),
        ((0.25, 0.5), Err(20)),
        ((86400.0, 86399.5), Ok(1)),
        ((65534.5, 0.0), Ok(65535)),
        ((65535.0, 0.0), Ok(65535)),
        ((65536.0, 1.0), Ok(65535)),
        ((65536.0, 0.5), Err(20)),
        ((65536.0, 0.0), Err(20)),
        ((16777216.0, 16711682.0), Ok(65534)),
        ((16777216.0, 16711681.0), Ok(65535)),
        ((16777216.0, 16711680.0), Err(20)),
        ((0.3, 0.1), Ok(1)),
        ((7.1, 0.1), Ok(7)),
        ((3.3, 0.3), Ok(3)),
    ];
    for ((seconds, dead_time), expected) in all {
        assert_eq!(cost_of(seconds, dead_time), expected, "{seconds} less {dead_time}");
    }
}

#[test]
fn both_zeros() {
    for zero in [0, MINUS] {
        assert_eq!((cost(zero, 0), cost(zero, MINUS)), (Ok(0), Ok(0)));
        assert_eq!((cost(ONE, zero), cost(1, zero), cost(LARGEST, zero)), (Ok(1), Ok(1), Err(20)));
        assert_eq!((cost(zero, ONE), cost(zero, 1), cost(zero, LARGEST)), (Err(20), Err(20), Err(20)));
    }
}

/// Differences down to the smallest float: each that is not zero counts.
#[test]
fn subnormals() {
    for bits in [1, 2, 3, NORMAL / 2, NORMAL - 2, NORMAL - 1, NORMAL, NORMAL + 1, 2 * NORMAL - 1, 2 * NORMAL] {
        assert_eq!((cost(bits, 0), cost(bits, bits)), (Ok(1), Ok(0)), "{bits:#x}");
        assert_eq!((cost(bits, bits - 1), cost(bits - 1, bits)), (Ok(1), Err(20)), "{bits:#x}");
        assert_eq!((cost(ONE, bits), cost(ONE + 1, bits)), (Ok(1), Ok(2)), "{bits:#x}");
    }
}

/// The float after a whole number, less a half, a quarter and three quarters of the step between the two, and floats next to these: at
/// the half and above it the difference goes down to the whole number, below it up to the float. From the whole number itself it goes
/// up to it again, or down to a float below it, whose cost is the same.
#[test]
fn rounded_to_a_whole_number_or_past_it() {
    for whole in [1, 2, 3, 4, 5, 100, 255, 256, 1023, 4096, 32767, 32768, 40000, 65534, 65535] {
        let bits = (whole as f32).to_bits();
        let part = |quarters: f32| (quarters / 4.0 * step(whole as f32)).to_bits();
        let next = if whole < 65535 { Ok(whole + 1) } else { Err(20) };
        for down in [part(2.0), part(2.0) + 1, part(3.0), part(4.0)] {
            assert_eq!(cost(bits + 1, down), Ok(whole), "after {whole}, less {down:#x}");
        }
        for up in [part(2.0) - 1, part(1.0), NORMAL, 1, 0, MINUS] {
            assert_eq!(cost(bits + 1, up), next, "after {whole}, less {up:#x}");
        }
        for less in [0, 1, NORMAL, part(1.0), part(2.0) - 1, part(2.0), part(2.0) + 1, part(3.0), part(4.0)] {
            assert_eq!(cost(bits, less), Ok(whole), "{whole}, less {less:#x}");
        }
    }
}

/// Halfway between 65,535 and the next float the difference goes down to 65,535, which is even; a little above that, and halfway between
/// the next two floats, it is past the largest cost.
#[test]
fn halfway_at_the_largest_cost() {
    let after = |steps: u32| 65535f32.to_bits() + steps;
    assert_eq!((cost_of(65535.0 + 1.0 / 256.0, 1.0 / 512.0), cost_of(65536.0, 1.0 - 1.0 / 512.0)), (Ok(65535), Ok(65535)));
    assert_eq!((cost_of(65536.0, 1.0 - 1.0 / 256.0), cost_of(65536.0, 1.0 - 1.0 / 512.0 - 1.0 / 16777216.0)), (Err(20), Err(20)));
    for steps in 2..6 {
        let dead_time = |halves: u32| (halves as f32 / 512.0).to_bits();
        assert_eq!(cost(after(steps), dead_time(2 * steps - 1)), Ok(65535), "{steps} steps after");
        assert_eq!(cost(after(steps), dead_time(2 * steps - 1) - 1), Err(20), "{steps} steps after");
        assert_eq!(cost(after(steps), dead_time(2 * steps - 3)), Err(20), "{steps} steps after");
    }
}

/// For each dead time the largest seconds that are taken, found by halving: they cost 65,535, and the next float is refused.
#[test]
fn the_largest_seconds() {
    for dead_time in [0.0, 1e-40, 1.0 / 512.0, 1.0 / 256.0, 0.1, 0.5, 1.0, 3.3, 1000.1, 65535.0, 65536.0, 98304.0, 16711681.0] {
        let (mut low, mut high) = (f32::to_bits(dead_time), INFINITY);
        while high - low > 1 {
            let middle = low + (high - low) / 2;
            *if cost(middle, dead_time.to_bits()).is_ok() { &mut low } else { &mut high } = middle;
        }
        assert_eq!((cost(low, dead_time.to_bits()), cost(low + 1, dead_time.to_bits())), (Ok(65535), Err(20)), "{dead_time}");
    }
    assert_eq!((cost(0x477f_ff00, 0), cost(0x477f_ff01, 0)), (Ok(65535), Err(20)));
}

/// Seconds and dead times of one size, up to the largest floats: the difference is exact.
#[test]
fn near_to_each_other() {
    for bits in [ONE, 0x477f_ff00, 0x4b80_0000, 0x5f00_0000, LARGEST - 1] {
        assert_eq!((cost(bits, bits), cost(bits, bits + 1)), (Ok(0), Err(20)), "{bits:#x}");
        let apart = step(f32::from_bits(bits)).ceil();
        assert_eq!(cost(bits + 1, bits), if apart <= 65535.0 { Ok(apart as u32) } else { Err(20) }, "{bits:#x}");
    }
    assert_eq!((cost(LARGEST, LARGEST), cost(LARGEST, 0), cost(0, LARGEST)), (Ok(0), Err(20), Err(20)));
}

/// Every place of a timing that is not finite or below zero: 20 where it was taken; where it was waited for nothing is judged.
#[test]
fn infinite_no_number_and_below_zero() {
    let clear = Ok(vec![0x15, 0, 2, 3]);
    for bad in NO_NUMBER.into_iter().chain(OTHER_BAD) {
        for other in GOOD.into_iter().chain(NO_NUMBER).chain(OTHER_BAD) {
            assert_eq!((cost(bad, other), cost(other, bad)), (Err(20), Err(20)), "{bad:#x} and {other:#x}");
            assert_eq!(compare_import(&waited(bad, other), IMPORT_BYTES), clear);
            assert_eq!(compare_import(&waited(other, bad), IMPORT_BYTES), clear);
        }
    }
    for (one, other) in GOOD.into_iter().flat_map(|one| GOOD.map(|other| (one, other))) {
        let _ = cost(one, other);
        assert_eq!(compare_import(&waited(one, other), IMPORT_BYTES), clear);
    }
}

/// The operands at both ends of their ranges, high byte first.
#[test]
fn bytes() {
    let lent = Import { node: 255, command: 15, target: 255, ..taken(0x477e_ff00, 0) };
    assert_eq!(compare_import(&lent, IMPORT_BYTES), Ok(vec![0x14, 0, 255, 15, 0, 255, 0xfe, 0xff]));
    assert_eq!(compare_import(&Import { kind: HIMM_SECONDS_WAITED, ..lent }, IMPORT_BYTES), Ok(vec![0x15, 0, 255, 15]));
    let lent = Import { node: 0, command: 0, target: 0, ..taken(0x4391_8000, 0) };
    assert_eq!(compare_import(&lent, IMPORT_BYTES), Ok(vec![0x14, 0, 0, 0, 0, 0, 1, 0x23]));
    assert_eq!(compare_import(&Import { kind: HIMM_SECONDS_WAITED, ..lent }, IMPORT_BYTES), Ok(vec![0x15, 0, 0, 0]));
}

/// Room for just the bytes, for fewer and for more, of which the rest is untouched.
#[test]
fn outputs() {
    for room in (0..=20).chain([100, 1000]) {
        assert_eq!(refusal(&taken(ONE, 0), room), if room < 8 { 15 } else { 0 }, "{room} bytes");
        assert_eq!(refusal(&waited(ONE, 0), room), if room < 4 { 15 } else { 0 }, "{room} bytes");
    }
}

/// The good import with each of its parts out of range, and with an unknown kind.
fn out_of_range(good: Import) -> Vec<Import> {
    let nodes = [256, 257, 65535, 65536, 65536 + 2, 1 << 24, 1 << 31, u32::MAX];
    let commands = [16, 17, 255, 256, 256 + 3, 65536, 1 << 31, u32::MAX];
    let kinds = [2, 3, 255, 256, 257, 65536, 1 << 31, u32::MAX];
    let all = nodes.into_iter().flat_map(|n| [Import { node: n, ..good }, Import { target: n, ..good }]);
    let all = all.chain(commands.map(|command| Import { command, ..good }));
    all.chain(kinds.map(|kind| Import { kind, ..good })).collect()
}

/// Node, command, target and kind: 6, the target's also for a wait.
#[test]
fn parts_out_of_range() {
    for good in [taken(ONE, 0), waited(ONE, 0)] {
        for lent in out_of_range(good) {
            assert_eq!(refusal(&lent, IMPORT_BYTES), 6, "{lent:x?}");
        }
    }
    for (node, command) in (0..NODES as u32).flat_map(|node| (0..COMMANDS as u32).map(move |command| (node, command))) {
        for good in [taken(ONE, 0), waited(ONE, 0)] {
            assert_eq!(refusal(&Import { node, command, target: NODES as u32 - 1 - node, ..good }, IMPORT_BYTES), 0);
        }
    }
}

/// 6, then 20, then 15, whichever of the later ones hold too.
#[test]
fn refusals_in_their_order() {
    let bad = [(NO_NUMBER[0], 0), (0, NO_NUMBER[2]), (INFINITY, INFINITY), (MINUS | ONE, 0), (0, ONE), (0x477f_ff01, 0)];
    for (seconds, dead_time) in bad {
        for room in [0, 3, 4, 7, 8, 9] {
            for lent in out_of_range(taken(seconds, dead_time)).into_iter().chain(out_of_range(waited(seconds, dead_time))) {
                assert_eq!(refusal(&lent, room), 6, "{lent:x?} into {room} bytes");
            }
            assert_eq!(refusal(&taken(seconds, dead_time), room), 20, "{room} bytes");
            assert_eq!(refusal(&waited(seconds, dead_time), room), if room < 4 { 15 } else { 0 }, "{room} bytes");
        }
    }
}

/// A number that is mostly under its limit.
fn number(random: &mut Random, limit: usize) -> u32 {
    match random.below(40) {
        0 => random.word() as u32,
        1 => random.below(2 * limit) as u32,
        _ => random.below(limit) as u32,
    }
}

#[test]
fn random_timings() {
    let mut random = Random::new(60_000);
    let mut answers = vec![];
    for _ in 0..1_000_000 {
        let (seconds, dead_time) = random::timing(&mut random);
        let (node, command, target) = (number(&mut random, NODES), number(&mut random, COMMANDS), number(&mut random, NODES));
        let (kind, room) = (random.pick(&[HIMM_SECONDS_TAKEN, HIMM_SECONDS_TAKEN, HIMM_SECONDS_TAKEN, HIMM_SECONDS_WAITED]), random.pick(&[8, 8, 8, 9, 20, 7, 4, 3]));
        answers.push(refusal(&Import { node, command, target, kind, seconds, dead_time }, room));
    }
    let [done, range, timing, short] = counts(&answers, [0, 6, 20, 15]);
    assert!(done > 300_000 && range > 50_000 && timing > 100_000 && short > 50_000, "{done}, {range}, {timing}, {short}");
}

/// Any bits at all, and any that are no sign.
#[test]
fn random_bits() {
    let mut random = Random::new(61_000);
    let mut answers = vec![];
    for round in 0..1_000_000 {
        let word = random.word() >> (round % 2);
        answers.push(refusal(&taken(word as u32, (word >> 32) as u32 >> (round % 2)), IMPORT_BYTES));
    }
    let [done, timing] = counts(&answers, [0, 20]);
    assert!(done > 50_000 && timing > 500_000, "{done} done, {timing} refused");
}

/// A timing for a node in use, with a target that is mostly a node of the same machine, sometimes one of another or none in use.
fn for_a_book(random: &mut Random, tree: &Tree) -> Import {
    let used: Vec<usize> = (0..NODES).filter(|&n| tree.nodes[n].is_some()).collect();
    let node = random.pick(&used);
    let target = match random.below(8) {
        0 => random.below(NODES),
        1 | 2 => random.pick(&used),
        _ => random.pick(&tree.nodes_of(tree.node(node).owner)),
    };
    let (seconds, dead_time) = random::timing(random);
    let kind = if random.chance(30) { HIMM_SECONDS_WAITED } else { HIMM_SECONDS_TAKEN };
    Import { node: node as u32, command: random.below(COMMANDS) as u32, target: target as u32, kind, seconds, dead_time }
}

/// The refusal of loading the bytes of a timing, or 0: a wait does not name its target.
fn load_refusal(lent: &Import, tree: &Tree) -> u32 {
    match &tree.nodes[lent.target as usize] {
        _ if lent.kind == HIMM_SECONDS_WAITED => 0,
        None => 7,
        Some(target) if target.owner != tree.node(lent.node as usize).owner => 11,
        Some(_) => 0,
    }
}

/// The node's own transition after a load that was done, in the book's words and in a step at the node, where it is a state. The step is
/// not by this transition where it was waited for or is shut by a hold.
fn judge_transition(holding: &Holding, lent: &Import, bytes: &[u8]) {
    let (tree, node) = (holding.tree(), lent.node as usize);
    let word = holding.book[node_at(node) + 2 + lent.command as usize];
    let moved = himm::step(&holding.book, lent.node, lent.command);
    let waited = lent.kind == HIMM_SECONDS_WAITED;
    if waited || tree.node(lent.target as usize).on_hold {
        assert!(moved.map_or(true, |moved| moved.node != lent.node), "{lent:x?}");
    }
    if waited {
        assert_eq!(word, BLANK, "{lent:x?}");
        return;
    }
    let cost = bytes[6] as u32 * 256 + bytes[7] as u32;
    assert_eq!((word / 65536, word % 65536), (lent.target, cost), "{lent:x?}");
    if tree.is_state(node) && !tree.node(lent.target as usize).on_hold {
        let state = tree.enter(lent.target as usize) as u32;
        assert_eq!(moved, Ok(Moved { state, cost, node: lent.node }), "{lent:x?}");
    }
}

/// Imports a timing and loads its bytes; gives the refusal of either, or 0.
fn import_and_load(holding: &mut Holding, lent: &Import) -> u32 {
    let bytes = match compare_import(lent, IMPORT_BYTES) {
        Err(number) => return number,
        Ok(bytes) => bytes,
    };
    let before = holding.clone();
    let loaded = holding.load(&bytes);
    assert_eq!(loaded.number, load_refusal(lent, &before.tree()), "{lent:x?}");
    if loaded.number == 0 {
        assert_eq!((loaded.bytes as usize, loaded.commands), (bytes.len(), 1));
        judge_transition(holding, lent, &bytes);
    } else {
        assert!(*holding == before, "a refused load wrote");
    }
    loaded.number
}

/// Timings imported and loaded one after another, with a refresh now and then; book and sheet are the model's after each load, and the
/// transition is there with its cost, or gone. At the end the plans are the model's too.
#[test]
fn random_books() {
    let mut answers = vec![];
    for seed in 0..200 {
        let mut random = Random::new(62_000 + seed);
        let shape = Shape::random(&mut random);
        let mut holding = Holding::random(&mut random, &shape);
        for _ in 0..30 {
            let lent = for_a_book(&mut random, &holding.tree());
            answers.push(import_and_load(&mut holding, &lent));
            if random.chance(20) {
                holding.load(&[REFRESH]);
            }
        }
        holding.load(&[REFRESH]);
        let nodes = common::nodes_to_try(&holding.tree(), &mut random, 8);
        holding.compare_plans(&holding.view(), &nodes);
    }
    let [done, unused, other, timing] = counts(&answers, [0, 7, 11, 20]);
    assert!(done > 2_000 && unused > 50 && other > 100 && timing > 500, "{done}, {unused}, {other}, {timing}");
}
