//! Each call made by the library, in both layouts of a book where it is lent one, and by the model, with everything that it gives and
//! leaves compared.
#![allow(dead_code)]

pub mod damage;
pub mod layouts;
pub mod season;
pub mod walkers;
pub mod words;

use himm::{raw, Layout, Refusal, Timing};
use himm_model::book::{hold_at, leave_at};
use himm_model::flat::Flat;
use himm_model::import::{Import, Reading};
use himm_model::sheet::{is_stale, is_true, machine_row, node_row, Exits};
use himm_model::stream::{Command, Loaded, Row, Station};
use himm_model::tree::{Moved, Tree};
use himm_model::{book, calls, random, sheet, COMMANDS, MACHINES, NODES};
use layouts::{laid, laid_back, LAYOUTS};
use std::fmt::Debug;

/// What an out-parameter holds before a call.
const UNTOUCHED: u32 = 0xdead_beef;
/// The same for Step's state, cost and node: three different words, so that a refused step that copies one to another shows.
pub const UNTOUCHED_STEP: [u32; 3] = [UNTOUCHED, UNTOUCHED + 1, UNTOUCHED + 2];
/// What a buffer holds before a call.
const FILLER: u8 = 0xa5;
/// How many bytes or words stand behind an output's end, which no call may touch.
const BEHIND: usize = 16;

/// The mast book of document 01, as the hexadecimal text of its stream.
pub const MAST: &str = "10 00 0000 11 00 0001 11 00 0002 12 0001 01 000A 11 01 000B 14 0000 00 0001 0005 14 0000 02 0002 0014 \
                        14 0001 01 0002 0003 14 0002 00 0000 0007 14 000A 01 000A 0001 14 000A 02 000B 0004";

/// The bytes of a hexadecimal text; blanks do not count.
pub fn hex(text: &str) -> Vec<u8> {
    let digits: Vec<u32> = text.chars().filter_map(|c| c.to_digit(16)).collect();
    digits.chunks(2).map(|pair| (pair[0] * 16 + pair[1]) as u8).collect()
}

/// The mast book with further commands, as hexadecimal text, and then a refresh.
pub fn mast(more: &str) -> Holding {
    Holding::loaded(&hex(&(MAST.to_string() + more)))
}

/// The cost and the commands of a plan.
pub fn plan(holding: &Holding, from: u32, to: u32) -> Result<(u32, Vec<u8>), Refusal> {
    let mut buffer = [0; himm::PLAN_BYTES];
    himm::plan(&holding.book, &holding.sheet, from, to, &mut buffer).map(|plan| (plan.cost, plan.commands.to_vec()))
}

/// What a load of further commands into the mast book answers: bytes, commands and the refusal or 0.
pub fn answer(more: &str) -> (u64, u64, u32) {
    let loaded = mast("").load(&hex(more));
    (loaded.bytes, loaded.commands, loaded.number)
}

/// The exit costs of a machine of the mast book for its commands 0, 1 and 2.
pub fn exits(holding: &Holding, machine: u32) -> [Result<u32, Refusal>; 3] {
    [0, 1, 2].map(|x| himm::exit(&holding.book, &holding.sheet, machine, x))
}

/// The bytes of a hold of 1 or 0 on a node.
pub fn hold(node: usize, hold: usize) -> Vec<u8> {
    Command::Hold { node, hold }.bytes()
}

/// The bytes of a cost of leaving a machine.
pub fn leave(machine: usize, cost: usize) -> Vec<u8> {
    Command::Leave { machine, cost }.bytes()
}

/// A chain of eight levels, refreshed: machine k has the start node k, which holds the next machine, and a second node 100 + k.
pub fn chain_of_pairs() -> Holding {
    let chain: Vec<u8> = (0..7).flat_map(|k| [0x12, 0, k, k + 1, 0, k + 1]).collect();
    let more: Vec<u8> = (0..8).flat_map(|k| [0x11, k, 0, 100 + k]).collect();
    Holding::loaded(&[chain, more].concat())
}

/// The commands that a book's stream ends in: its holds by node, and then its costs of leaving by machine.
pub fn last_commands(book: &[u32]) -> Vec<u8> {
    let held = (0..NODES).filter(|&n| book[hold_at(n)] == 1).flat_map(|n| hold(n, 1));
    let left = (0..MACHINES).filter(|&m| book[leave_at(m)] != 0).flat_map(|m| leave(m, book[leave_at(m)] as usize));
    held.chain(left).collect()
}

/// The states of a book, as the calls take them.
pub fn states(tree: &Tree) -> Vec<u32> {
    tree.states().into_iter().map(|s| s as u32).collect()
}

/// For how many pairs of states the least cost is another one than in another tree of the same states, and for how many there is no way.
pub fn changed_pairs(tree: &Tree, other: &Tree) -> [usize; 2] {
    let (flat, plainer) = (Flat::of(&book::encode(tree)), Flat::of(&book::encode(other)));
    let mut changed = [0; 2];
    for from in tree.states() {
        let pairs = flat.costs_from(from).into_iter().zip(plainer.costs_from(from));
        pairs.for_each(|(now, before)| changed[now.is_none() as usize] += (now != before) as usize);
    }
    changed
}

/// How often each of some answers was given.
pub fn counts<const N: usize>(answers: &[u32], numbers: [u32; N]) -> [usize; N] {
    numbers.map(|number| answers.iter().filter(|&&answer| answer == number).count())
}

/// A book by node and its sheet, lent to each call.
#[derive(Clone, PartialEq, Eq)]
pub struct Holding {
    pub book: Vec<u32>,
    pub sheet: Vec<u32>,
}

/// What the model makes of a holding, worked out once for many calls, and its book by command.
pub struct View {
    pub book: Result<Tree, u32>,
    pub whole: Result<Tree, u32>,
    exits: Vec<Exits>,
    flat: Option<Flat>,
    by_command: Vec<u32>,
}

impl Holding {
    pub fn fresh() -> Holding {
        let mut all = Holding { book: vec![7; himm::BOOK_WORDS], sheet: vec![7; himm::SHEET_WORDS] };
        himm::open_fresh(&mut all.book, &mut all.sheet).expect("right lengths");
        all
    }

    pub fn ladder() -> Holding {
        let mut all = Holding { book: vec![7; himm::BOOK_WORDS], sheet: vec![7; himm::SHEET_WORDS] };
        himm::open_ladder(&mut all.book, &mut all.sheet).expect("right lengths");
        all
    }

    /// Words that are no holding's, for a call that writes them all.
    pub fn untouched() -> Holding {
        Holding { book: vec![UNTOUCHED; himm::BOOK_WORDS], sheet: vec![UNTOUCHED; himm::SHEET_WORDS] }
    }

    /// What a good table opens, every machine stale.
    pub fn of_table(rows: &[u32]) -> Holding {
        let mut all = Holding::untouched();
        assert_eq!(all.open_table(rows), 0, "{rows:?}");
        all
    }

    /// A fresh holding with commands and then a refresh loaded into it.
    pub fn loaded(stream: &[u8]) -> Holding {
        let mut all = Holding::fresh();
        assert_eq!(all.load(stream).number, 0);
        assert_eq!(all.load(&[himm::REFRESH]).number, 0);
        all
    }

    pub fn random(random: &mut random::Random, shape: &random::Shape) -> Holding {
        Holding::loaded(&random::bytes(&random::book(random, shape)))
    }

    pub fn view(&self) -> View {
        let book = calls::read_book(&self.book);
        let exits = book.as_ref().map_or(vec![], sheet::all_exits);
        let flat = book.as_ref().ok().map(|_| Flat::of(&self.book));
        View { whole: calls::read_holding(&self.book, &self.sheet), book, exits, flat, by_command: laid(Layout::ByCommand, &self.book) }
    }

    /// The book in a layout, as it is lent to a call that only reads it.
    fn lent<'a>(&'a self, view: &'a View, layout: Layout) -> &'a [u32] {
        match layout {
            Layout::ByNode => &self.book,
            Layout::ByCommand => &view.by_command,
        }
    }

    /// A call that may write the book, in a layout, and the sheet; the holding is by node before and after it.
    pub fn in_layout<T>(&mut self, layout: Layout, call: impl FnOnce(&mut [u32], &mut [u32]) -> T) -> T {
        let mut book = laid(layout, &self.book);
        let given = call(&mut book, &mut self.sheet);
        self.book = laid_back(layout, &book);
        given
    }

    pub fn tree(&self) -> Tree {
        book::decode(&self.book).expect("a well-formed book")
    }

    /// Loads a stream and compares the answer, the book and every row of the sheet.
    pub fn load(&mut self, stream: &[u8]) -> Loaded {
        let before = self.clone();
        let expected = calls::read_holding(&before.book, &before.sheet).map(|tree| {
            let mut station = calls::station(tree, &before.sheet);
            (station.load(stream), station)
        });
        let answer = expected.as_ref().map_or_else(|&number| Loaded { bytes: 0, commands: 0, number }, |(loaded, _)| *loaded);
        for layout in LAYOUTS {
            *self = before.clone();
            let got = self.in_layout(layout, |book, sheet| layout.load(book, sheet, stream));
            let number = got.result.err().map_or(0, Refusal::number);
            assert_eq!(Loaded { bytes: got.bytes, commands: got.commands, number }, answer, "{layout:?}");
            match &expected {
                Err(_) => assert!(*self == before, "a refused load wrote"),
                Ok((_, station)) => self.compare(&before, station),
            }
        }
        answer
    }

    /// Merges two books over this holding and compares the answer and every word with the model's; gives the refusal or 0.
    pub fn merge(&mut self, first: &[u32], second: &[u32]) -> u32 {
        let expected = calls::merge(first, second, self.book.len(), self.sheet.len());
        self.compare_written(expected, |layout, book, sheet| layout.merge(&laid(layout, first), &laid(layout, second), book, sheet))
    }

    /// Opens a table over this holding and compares likewise; gives the refusal or 0.
    pub fn open_table(&mut self, rows: &[u32]) -> u32 {
        let (expected, lent) = (calls::open_table(rows, self.book.len(), self.sheet.len()), rows.to_vec());
        let number = self.compare_written(expected, |layout, book, sheet| layout.open_table(&lent, book, sheet));
        assert!(lent == rows, "another table than was lent");
        number
    }

    /// The answer of a call that writes a book and a sheet whole is the model's, and so is every word of both; where it is refused, nothing
    /// is written. Gives the refusal or 0.
    pub fn compare_written(
        &mut self,
        expected: Result<(Vec<u32>, Vec<u32>), u32>,
        call: impl Fn(Layout, &mut [u32], &mut [u32]) -> Result<(), Refusal>,
    ) -> u32 {
        let before = self.clone();
        for layout in LAYOUTS {
            *self = before.clone();
            let answer = self.in_layout(layout, |book, sheet| call(layout, book, sheet));
            assert_eq!(answer.map_err(Refusal::number), expected.as_ref().map(|_| ()).map_err(|&k| k), "{layout:?}");
            match &expected {
                Err(_) => assert!(*self == before, "a refused call wrote, {layout:?}"),
                Ok((book, sheet)) => {
                    assert!(self.book == *book, "another book, {layout:?}");
                    assert!(self.sheet == *sheet, "another sheet, {layout:?}");
                }
            }
        }
        expected.err().unwrap_or(0)
    }

    /// The book is the station's; marks are as expected, kept rows keep their words, and the rest is true.
    fn compare(&self, before: &Holding, station: &Station) {
        assert!(self.book == book::encode(&station.tree), "another book");
        for m in station.tree.machines_in_use() {
            assert_eq!(is_stale(&self.sheet, m), station.rows[m] == Row::Stale, "the mark of machine {m}");
            if station.rows[m] == Row::Kept {
                self.compare_kept(before, &station.tree, m);
            }
        }
        assert!(is_true(&station.tree, &self.sheet), "a false sheet");
    }

    fn compare_kept(&self, before: &Holding, tree: &Tree, m: usize) {
        let row = machine_row(m)..machine_row(m) + 33;
        assert_eq!(self.sheet[row.clone()], before.sheet[row], "the row of machine {m}");
        for n in tree.nodes_of(m) {
            let row = node_row(n)..node_row(n) + 3;
            assert_eq!(self.sheet[row.clone()], before.sheet[row], "the row of node {n}");
        }
    }

    /// Every machine and command, and some out of range.
    pub fn compare_exits(&self, view: &View) {
        for machine in (0..=MACHINES as u32).chain([65535, u32::MAX]) {
            for command in (0..=COMMANDS as u32).chain([65535, u32::MAX]) {
                self.compare_exit(view, machine, command);
            }
        }
    }

    pub fn compare_exit(&self, view: &View, machine: u32, command: u32) {
        let expected = view.whole.as_ref().map_err(|&k| k).and_then(|t| calls::exit(t, &self.sheet, &view.exits, machine, command));
        for layout in LAYOUTS {
            let call = if layout == Layout::ByNode { raw::himm_exit } else { raw::himm_exit_by_command };
            let (b, s, mut cost) = (self.lent(view, layout), &self.sheet, UNTOUCHED);
            let number = unsafe { call(b.as_ptr(), b.len(), s.as_ptr(), s.len(), machine, command, &mut cost) };
            let expected = expected.map_or_else(|k| (k, UNTOUCHED), |c| (0, c));
            assert_eq!((number, cost), expected, "exit {machine} {command}, {layout:?}");
        }
    }

    /// Every node and command, and some out of range.
    pub fn compare_steps(&self, view: &View) {
        for state in (0..=NODES as u32).chain([65535, u32::MAX]) {
            for command in (0..=COMMANDS as u32).chain([65535, u32::MAX]) {
                self.compare_step(view, state, command);
            }
        }
    }

    pub fn compare_step(&self, view: &View, state: u32, command: u32) {
        let expected = view.book.as_ref().map_err(|&k| k).and_then(|t| calls::step(t, state, command));
        let words = |to: Moved| (0, [to.state as u32, to.cost, to.node as u32]);
        let expected = expected.map_or_else(|k| (k, UNTOUCHED_STEP), words);
        for layout in LAYOUTS {
            assert_eq!(step(layout, self.lent(view, layout), state, command), expected, "step {state} {command}, {layout:?}");
        }
    }

    /// What Step returns, and what it leaves in the words for state, cost and node.
    pub fn step(&self, state: u32, command: u32) -> (u32, [u32; 3]) {
        step(Layout::ByNode, &self.book, state, command)
    }

    /// Plans between all pairs of some nodes.
    pub fn compare_plans(&self, view: &View, nodes: &[u32]) {
        for &from in nodes {
            for &to in nodes {
                self.compare_plan(view, from, to, himm::PLAN_BYTES);
            }
        }
    }

    /// Plans between all pairs of states, and every exit and step.
    pub fn compare_all_pairs(&self) {
        let view = self.view();
        self.compare_plans(&view, &states(&self.tree()));
        self.compare_exits(&view);
        self.compare_steps(&view);
    }

    /// The refusal or the least cost is the model's; the list leads there at that cost and passes no state twice.
    pub fn compare_plan(&self, view: &View, from: u32, to: u32, room: usize) -> u32 {
        let expected = view.expected_plan(&self.sheet, from, to, room);
        for layout in LAYOUTS {
            let (number, [cost, count], plan) = self.plan_in(layout, view, from, to, room);
            match expected {
                Err(refusal) => {
                    assert_eq!((number, cost, count), (refusal, UNTOUCHED, UNTOUCHED), "plan {from} {to}, {layout:?}");
                    assert!(plan.iter().all(|&byte| byte == FILLER), "a refused plan wrote");
                }
                Ok(least) => {
                    assert_eq!((number, cost), (0, least), "plan {from} {to}, {layout:?}");
                    let tree = view.book.as_ref().expect("a well-formed book");
                    walk(tree, from as usize, to as usize, least, &plan, count as usize);
                }
            }
        }
        expected.err().unwrap_or(0)
    }

    /// What Plan returns in a layout, what it leaves in the words for cost and count, and the buffer.
    fn plan_in(&self, layout: Layout, view: &View, from: u32, to: u32, room: usize) -> (u32, [u32; 2], Vec<u8>) {
        let call = if layout == Layout::ByNode { raw::himm_plan } else { raw::himm_plan_by_command };
        let (b, s, mut plan) = (self.lent(view, layout), &self.sheet, vec![FILLER; room]);
        let (mut cost, mut count) = (UNTOUCHED, UNTOUCHED);
        let number = unsafe {
            let (at, length) = (plan.as_mut_ptr(), plan.len());
            call(b.as_ptr(), b.len(), s.as_ptr(), s.len(), from, to, at, length, &mut cost, &mut count)
        };
        (number, [cost, count], plan)
    }

    /// Write with room to spare, with just enough, with one byte too few and with none.
    pub fn compare_write(&self, view: &View) {
        let long = view.book.as_ref().map_or(0, |tree| himm_model::write::stream(tree).len());
        for (room, layout) in [himm::STREAM_BYTES, long, long.saturating_sub(1), 0].into_iter().flat_map(|room| LAYOUTS.map(|l| (room, l)))
        {
            let expected = view.book.as_ref().map_err(|&k| k).and_then(|t| calls::write(t, room));
            let call = if layout == Layout::ByNode { raw::himm_write } else { raw::himm_write_by_command };
            let b = self.lent(view, layout);
            compare_output(&("write", layout), room, FILLER, &expected, |out, length| unsafe {
                call(b.as_ptr(), b.len(), out, room, length)
            });
        }
    }

    pub fn compare_choice(&self, view: &View, from: u32, to: u32, first: &[u8], second: &[u8]) -> u32 {
        let expected = view.book.as_ref().map_err(|&k| k).and_then(|t| calls::choose(t, from, to, first, second));
        for layout in LAYOUTS {
            let call = if layout == Layout::ByNode { raw::himm_choose } else { raw::himm_choose_by_command };
            let (b, mut which, mut used) = (self.lent(view, layout), UNTOUCHED, UNTOUCHED);
            let number = unsafe {
                let (one, two) = ((first.as_ptr(), first.len()), (second.as_ptr(), second.len()));
                call(b.as_ptr(), b.len(), from, to, one.0, one.1, two.0, two.1, &mut which, &mut used)
            };
            let expected = expected.map_or_else(|k| (k, UNTOUCHED, UNTOUCHED), |(w, n)| (0, w, n as u32));
            assert_eq!((number, which, used), expected, "choose {from} {to} {first:?} {second:?}, {layout:?}");
        }
        expected.err().unwrap_or(0)
    }

    /// The stream of the book, loaded into another holding, leaves the same book, all stale.
    pub fn compare_round_trip(&self, other: &mut Holding) {
        let mut out = vec![0; himm::STREAM_BYTES];
        let stream = himm::write(&self.book, &mut out).expect("a well-formed book");
        let loaded = other.load(stream);
        assert_eq!((loaded.number, loaded.bytes as usize), (0, stream.len()));
        assert!(other.book == self.book, "another book after the round trip");
        assert!(other.sheet == sheet::stale(&self.tree()), "another sheet after the round trip");
    }
}

impl View {
    fn expected_plan(&self, sheet: &[u32], from: u32, to: u32, room: usize) -> Result<u32, u32> {
        let tree = self.whole.as_ref().map_err(|&k| k)?;
        calls::plan(tree, sheet, self.flat.as_ref().expect("a flat tree"), from, to, room)
    }
}

/// What Step returns for a book in a layout, and what it leaves in the words for state, cost and node.
fn step(layout: Layout, book: &[u32], state: u32, command: u32) -> (u32, [u32; 3]) {
    let call = if layout == Layout::ByNode { raw::himm_step } else { raw::himm_step_by_command };
    let [mut next, mut cost, mut node] = UNTOUCHED_STEP;
    let number = unsafe { call(book.as_ptr(), book.len(), state, command, &mut next, &mut cost, &mut node) };
    (number, [next, cost, node])
}

/// A call that puts bytes or words at the front of an output of so many: its answer, the length that it stores and all of the output are as
/// expected, the filler that it leaves and that behind the output's end among them.
fn compare_output<T: Copy + PartialEq>(
    what: &dyn Debug,
    room: usize,
    filler: T,
    expected: &Result<Vec<T>, u32>,
    call: impl FnOnce(*mut T, *mut u32) -> u32,
) {
    let (mut out, mut length) = (vec![filler; room + BEHIND], UNTOUCHED);
    let number = call(out.as_mut_ptr(), &mut length);
    let (refusal, long) = expected.as_ref().map_or_else(|&k| (k, UNTOUCHED), |front| (0, front.len() as u32));
    assert_eq!((number, length), (refusal, long), "{what:x?} into room for {room}");
    let mut whole = expected.clone().unwrap_or_default();
    whole.resize(room + BEHIND, filler);
    assert!(out == whole, "{what:x?} into room for {room}: another output");
}

/// The ladder's rows for a depth by the call for C and by the safe one; gives what the model gives.
pub fn compare_ladder(depth: u32, room: usize) -> Result<Vec<u32>, u32> {
    let (expected, mut out) = (calls::ladder(depth, room), vec![UNTOUCHED; room]);
    compare_output(&("ladder", depth), room, UNTOUCHED, &expected, |out, length| unsafe { raw::himm_ladder(depth, out, room, length) });
    let safe = himm::ladder(depth, &mut out);
    assert_eq!(safe.map_err(|refusal| refusal.number()), expected.as_deref().map_err(|&k| k), "ladder {depth} into room for {room}");
    expected
}

/// Import by the call for C, and by the safe one where the kind of the reading is known; gives what the model gives.
pub fn compare_import(lent: &Import, room: usize) -> Result<Vec<u8>, u32> {
    let expected = calls::import(lent, room);
    let (seconds, dead_time) = (f32::from_bits(lent.seconds), f32::from_bits(lent.dead_time));
    compare_output(lent, room, FILLER, &expected, |out, length| unsafe {
        raw::himm_import(lent.node, lent.command, lent.target, lent.kind, seconds, dead_time, out, room, length)
    });
    let reading = lent.reading().map(|reading| match reading {
        Reading::Taken(bits) => himm::Reading::Taken(f32::from_bits(bits)),
        Reading::Waited(bits) => himm::Reading::Waited(f32::from_bits(bits)),
    });
    if let Some(reading) = reading {
        let mut out = vec![FILLER; room];
        let safe = himm::import(lent.node, lent.command, lent.target, Timing { reading, dead_time }, &mut out);
        assert_eq!(safe.map_err(|refusal| refusal.number()), expected.as_deref().map_err(|&k| k), "{lent:x?}");
    }
    expected
}

/// Follows a plan through the tree.
fn walk(tree: &Tree, from: usize, to: usize, least: u32, plan: &[u8], count: usize) {
    assert!(count < tree.states().len(), "more commands than states less 1");
    assert!(plan[count..].iter().all(|&byte| byte == FILLER), "a plan wrote past its end");
    let mut passed = vec![from];
    let mut sum = 0;
    for &command in &plan[..count] {
        let moved = tree.step(passed[passed.len() - 1], command as usize).expect("no stop");
        assert!(!passed.contains(&moved.state), "a state passed twice");
        passed.push(moved.state);
        sum += moved.cost;
    }
    assert_eq!((passed[count], sum), (to, least), "a list that costs or leads otherwise");
}

/// Node numbers to plan between: the states, and some numbers that are none.
pub fn nodes_to_try(tree: &Tree, random: &mut random::Random, most: usize) -> Vec<u32> {
    let states = tree.states();
    let mut nodes: Vec<u32> = random.shuffled(states.len()).into_iter().take(most).map(|i| states[i] as u32).collect();
    nodes.extend((0..NODES as u32).find(|&n| tree.nodes[n as usize].is_none()));
    nodes.extend((0..NODES as u32).find(|&n| tree.nodes[n as usize].as_ref().is_some_and(|node| node.below.is_some())));
    nodes.extend([256, u32::MAX]);
    nodes
}
