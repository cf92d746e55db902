//! The rows of one kind of book in the first table, and its parts of a plan.

use crate::holding::Holding;
use crate::library::Moved;
use crate::side::{hard, logged, Choice, Side, Walk, BOOKS, IMPORT_BYTES, ROUNDS, TIMINGS};
use crate::timing::{medians, print_row, rounds, timed, Times};
use himm_model::flat::Flat;
use himm_model::import::Import;
use himm_model::stream::Station;
use himm_model::{book, calls, choose, layout, merge, table, write, LARGEST_DEPTH};

/// How many other books are judged between two calls on the same one.
const OTHERS: usize = 8;

/// How many answers were compared, and how many of them differed.
#[derive(Default)]
pub struct Agreement {
    pub compared: usize,
    pub differed: usize,
}

impl Agreement {
    /// One answer of each side.
    pub fn of<T: PartialEq>(&mut self, ours: T, theirs: T) {
        self.compared += 1;
        self.differed += (ours != theirs) as usize;
    }

    /// As many answers of each side.
    pub fn of_all<T: PartialEq>(&mut self, ours: Vec<T>, theirs: Vec<T>) {
        assert_eq!(ours.len(), theirs.len());
        ours.into_iter().zip(theirs).for_each(|(a, b)| self.of(a, b));
    }
}

/// The name of a kind of book, with what its books are like.
fn title(name: &str, side: &Side) -> String {
    let mean = |count: &dyn Fn(&Holding) -> usize| side.books.iter().map(count).sum::<usize>() / side.books.len();
    format!(
        "{name}: {} in turn, in the mean {} machines, {} states, {} bytes as a stream",
        side.books.len(),
        mean(&|holding| holding.tree.machines_in_use().len()),
        mean(&|holding| holding.tree.states().len()),
        side.streams.iter().map(Vec::len).sum::<usize>() / side.streams.len()
    )
}

/// Every row of one kind of book, the next book in each round.
pub fn all(name: &str, side: &Side, agreement: &mut Agreement) {
    let ways = (0..ROUNDS).filter(|&i| search(&Flat::of(&side.at(i).book), side, i).is_some()).count();
    println!();
    println!("{}; a way in {ways} of {ROUNDS} pairs", title(name, side));
    again(side, agreement);
    loads(side, agreement);
    refreshes(side, agreement);
    writes(side, agreement);
    choices(side, agreement);
    walks(side, agreement);
    layouts(side, agreement);
}

/// The rows that are also measured with one book again and again.
pub fn again(side: &Side, agreement: &mut Agreement) {
    plans(side, agreement);
    edits(side, agreement);
    steps(side, agreement);
}

/// The flat search's cost for the pair of a round.
fn search(flat: &Flat, side: &Side, i: usize) -> Option<u32> {
    flat.search(side.pairs[i].0 as usize, side.pairs[i].1 as usize).map(|way| way.cost)
}

/// Plans against the flat search, flattened in two ways or beforehand.
fn plans(side: &Side, agreement: &mut Agreement) {
    let flats: Vec<Flat> = side.books.iter().map(|holding| Flat::of(&holding.book)).collect();
    let plan = |i: usize, times: &mut _| side.plan(i, times);
    let whole = |i: usize, times: &mut _| timed(times, || search(&Flat::of(&side.at(i).book), side, i));
    rounds(ROUNDS, plan, whole, |a, b| agreement.of(a, b)).print("plan", "flatten and search");
    let plain = |i: usize, times: &mut _| timed(times, || search(&Flat::step_by_step(&side.at(i).book), side, i));
    rounds(ROUNDS, plan, plain, |a, b| agreement.of(a, b)).print("plan", "flatten step by step and search");
    let alone = |i: usize, times: &mut _| timed(times, || search(&flats[i % flats.len()], side, i));
    rounds(ROUNDS, plan, alone, |a, b| agreement.of(a, b)).print("plan", "search alone");
    let flatten = |i: usize, times: &mut _| timed(times, || Flat::of(&side.at(i).book));
    rounds(ROUNDS, |i, t| side.at(i).check_both(t), flatten, |_, _| ()).print("checks of a plan alone", "flatten alone");
}

/// One edit, then a plan: with a refresh in between on our side, with a new flattening on the other.
fn edits(side: &Side, agreement: &mut Agreement) {
    let ours = |i: usize, times: &mut _| side.edit_refresh_and_plan(i, times);
    let theirs = |i: usize, times: &mut _| {
        let mut words = side.at(i).book.clone();
        timed(times, || search(&set(&mut words, &side.edits[i]), side, i))
    };
    rounds(ROUNDS, ours, theirs, |a, b| agreement.of(a, b)).print("edit, refresh and plan", "edit, flatten and search");
}

/// Sets a transition in a book by its bytes, and flattens it.
fn set(words: &mut [u32], edit: &[u8]) -> Flat {
    let two = |at: usize| edit[at] as u32 * 256 + edit[at + 1] as u32;
    words[book::node_at(two(1) as usize) + 2 + edit[3] as usize] = two(4) * 65536 + two(6);
    Flat::of(words)
}

/// Steps against a flattening that is looked up once. It has no acting nodes; those are the model's.
fn steps(side: &Side, agreement: &mut Agreement) {
    let theirs = |i: usize, times: &mut _| {
        let (state, command) = side.places[i];
        let found = timed(times, || Flat::of(&side.at(i).book).step(state as usize, command as usize));
        let node = side.at(i).tree.step(state as usize, command as usize).map(|to| to.node as u32);
        found.map(|(next, cost)| Moved { state: next as u32, cost, node })
    };
    rounds(ROUNDS, |i, t| side.step(i, t), theirs, |a, b| agreement.of(a, b)).print("step", "flatten and look up");
}

/// A book's own stream into a fresh holding; the model edits its tree and encodes it.
fn loads(side: &Side, agreement: &mut Agreement) {
    let fresh = Holding::fresh(side.library());
    let theirs = |i: usize, times: &mut _| {
        timed(times, || {
            let mut station = Station::stale(fresh.tree.clone());
            station.load(&side.streams[i % side.streams.len()]);
            book::encode(&station.tree)
        })
    };
    rounds(ROUNDS / 4, |i, t| side.load(i, t), theirs, |a, b| agreement.of(a, b)).print("load of the whole book", "the plain model's load");
}

/// One edit and a refresh of what it left stale, against the same edit and a refresh of everything; both leave the same book.
fn refreshes(side: &Side, agreement: &mut Agreement) {
    let all = |i: usize, times: &mut _| side.edit_and_refresh_all(i, times);
    let one = |i: usize, times: &mut _| side.edit_and_refresh(i, times);
    rounds(ROUNDS, one, all, |a, b| agreement.of(a, b)).print("one edit and refresh", "the same, all stale (ours)");
    let flatten = |i: usize, times: &mut _| timed(times, || Flat::of(&side.at(i).book));
    rounds(ROUNDS, all, flatten, |_, _| ()).print("one edit and refresh, all stale", "flatten alone");
    rounds(ROUNDS, |i, t| side.load_nothing(i, t), all, |_, _| ()).print("load of an empty stream", "one edit, all stale (ours)");
}

/// Writing against the model's.
fn writes(side: &Side, agreement: &mut Agreement) {
    let theirs = |i: usize, times: &mut _| timed(times, || write::stream(&book::decode(&side.at(i).book).expect("a book"))).len();
    rounds(ROUNDS / 4, |i, t| side.write(i, t), theirs, |a, b| agreement.of(a, b)).print("write", "the plain model's write");
}

/// Choosing between two long lists against the model's, which decodes the book first, within the clock, where ours checks it.
fn choices(side: &Side, agreement: &mut Agreement) {
    let theirs = |i: usize, times: &mut _| {
        let Choice { pair: (from, to), lists: [first, second] } = side.long(i);
        let decoded = || book::decode(&side.at(i).book).expect("a book");
        let chosen = timed(times, || choose::choose(&decoded(), *from as usize, *to as usize, first, second));
        chosen.map(|(which, used)| (which, used as u32))
    };
    let ours = |i: usize, times: &mut _| side.choose_long(i, times);
    rounds(ROUNDS / 4, ours, theirs, |a, b| agreement.of(a, b)).print("choose, long lists", "the plain model's choose");
}

/// Eight walkers opened, and a command to one of them, against the model, which decodes the book first, within the clock, where ours checks
/// it.
fn walks(side: &Side, agreement: &mut Agreement) {
    let open = |i: usize, times: &mut _| side.open_walkers(i, times);
    let opened = |i: usize, times: &mut _| {
        let Walk { limited: (node, limit), states, .. } = &side.walks[i];
        let decoded = || calls::read_book(&side.at(i).book);
        timed(times, || decoded().and_then(|tree| calls::walkers(&tree, *node, *limit, states))).err().unwrap_or(0)
    };
    rounds(ROUNDS, open, opened, |a, b| agreement.of(a, b)).print("open 8 walkers", "the plain model's opening");
    let command = |i: usize, times: &mut _| side.walk(i, times);
    let walked = |i: usize, times: &mut _| {
        let Walk { limited: (node, limit), mut states, walker, command } = side.walks[i];
        let decoded = || calls::read_book(&side.at(i).book);
        let to = timed(times, || decoded().and_then(|tree| calls::walk(&tree, node, limit, &mut states, walker, command)));
        (to.map(|to| Moved { state: to.state as u32, cost: to.cost, node: Some(to.node as u32) }), states)
    };
    rounds(ROUNDS, command, walked, |a, b| agreement.of(a, b)).print("command to one of 8 walkers", "the plain model's command");
}

/// Both turns against a plan and against the model's; a look at one command by command against the same by node.
fn layouts(side: &Side, agreement: &mut Agreement) {
    let (there, back) = (|i: usize, t: &mut _| side.turn_by_command(i, t), |i: usize, t: &mut _| side.turn_by_node(i, t));
    rounds(ROUNDS, there, |i, t| side.plan(i, t), |_, _| ()).print("turn by command", "plan (ours)");
    rounds(ROUNDS, back, |i, t| side.plan(i, t), |_, _| ()).print("turn by node", "plan (ours)");
    let model = |i: usize, times: &mut _| timed(times, || layout::by_command(&side.at(i).book));
    rounds(ROUNDS, there, model, |a, b| agreement.of(a, b)).print("turn by command", "the plain model's turn");
    let model = |i: usize, times: &mut _| timed(times, || layout::by_node(side.by_command(i)));
    rounds(ROUNDS, back, model, |a, b| agreement.of(a, b)).print("turn by node", "the plain model's turn");
    calls_by_command(side, agreement);
    let look = |i: usize, times: &mut _| side.scan_by_command(i, times);
    let name = "one command in 32 books by command";
    rounds(ROUNDS, look, |i, t| side.scan_by_node(i, t), |a, b| agreement.of(a, b)).print(name, "the same by node");
}

/// A step and a plan by command against the same by node. Both sides judge the same book, and the second would find it learnt by the
/// processor; so before each of them some other books are judged, outside the clock.
fn calls_by_command(side: &Side, agreement: &mut Agreement) {
    let others = |i: usize| (1..=OTHERS).for_each(|k| side.at(i + k).check_both(&mut Times::default()));
    let step = |i: usize, times: &mut _| {
        others(i);
        side.step_by_command(i, times)
    };
    let step_by_node = |i: usize, times: &mut _| {
        others(i);
        side.step(i, times)
    };
    rounds(ROUNDS, step, step_by_node, |a, b| agreement.of(a, b)).print("step by command", "step (ours)");
    let plan = |i: usize, times: &mut _| {
        others(i);
        side.plan_by_command(i, times)
    };
    let plan_by_node = |i: usize, times: &mut _| {
        others(i);
        side.plan(i, times)
    };
    rounds(ROUNDS, plan, plan_by_node, |a, b| agreement.of(a, b)).print("plan by command", "plan (ours)");
}

/// A merge of two books against writing and loading them both. The merged tree is the model's, and the loaded ones are those written.
pub fn merges(name: &str, side: &Side, agreement: &mut Agreement) {
    println!();
    println!("{}", title(name, side));
    let both = |i: usize, times: &mut _| (i, side.write_and_load_both(i, times));
    let agree = |merged: Vec<u32>, (i, loaded): (usize, [Vec<u32>; 2])| {
        let [first, second] = side.two(i);
        let tree = merge::merge(&first.tree, &second.tree).expect("two trees that fit together");
        agreement.of(merged, book::encode(&tree));
        agreement.of(loaded, [first, second].map(|holding| holding.book.clone()));
    };
    rounds(ROUNDS, |i, t| side.merge(i, t), both, agree).print("merge two half-full random books", "write and load both (ours)");
}

/// The ladder opened from a table against the constant one and against the model, and its rows against the model's.
pub fn tables(side: &Side, agreement: &mut Agreement) {
    println!();
    println!("the ladder's table of 189 rows, the same each time");
    let open = |_: usize, times: &mut _| side.open_table(times);
    rounds(ROUNDS, open, |_, t| side.open(t), |a, b| agreement.of(a, b)).print("open the ladder from a table", "open the ladder (ours)");
    let (rows, holding) = (table::ladder(LARGEST_DEPTH), side.at(0));
    let lengths = (holding.book.len(), holding.sheet.len());
    let model = |_: usize, times: &mut _| timed(times, || calls::open_table(&rows, lengths.0, lengths.1)).map_or(vec![], |(book, _)| book);
    rounds(ROUNDS / 4, open, model, |a, b| agreement.of(a, b)).print("open the ladder from a table", "the plain model's opening");
    let model = |_: usize, times: &mut _| timed(times, || table::ladder(LARGEST_DEPTH));
    rounds(ROUNDS, |_, t| side.ladder(t), model, |a, b| agreement.of(a, b)).print("rows of the ladder", "the plain model's rows");
}

/// Imports against Rust's floats and against the model, which works them out digit by digit.
pub fn imports(side: &Side, agreement: &mut Agreement) {
    println!();
    println!("timings: {TIMINGS} in each round, new ones each time");
    for (name, timings) in [("import 1,000 timings", logged as fn(usize) -> Vec<Import>), ("import 1,000 hard timings", hard)] {
        let ours = |i: usize, times: &mut _| side.import(&timings(i), times);
        let floats = |i: usize, times: &mut _| stream_of(&timings(i), by_floats, times);
        rounds(ROUNDS, ours, floats, |a, b| agreement.of(a, b)).print(name, "Rust's floats");
        let model = |i: usize, times: &mut _| stream_of(&timings(i), by_model, times);
        rounds(ROUNDS / 4, ours, model, |a, b| agreement.of(a, b)).print(name, "the plain model's import");
    }
}

/// The bytes of all timings, each put at the end by a function; the output's memory is there before the clock runs.
fn stream_of(timings: &[Import], put: fn(&Import, &mut Vec<u8>), times: &mut Times) -> Vec<u8> {
    let mut stream = vec![u8::MAX; IMPORT_BYTES * timings.len()];
    stream.clear();
    timed(times, || timings.iter().for_each(|lent| put(lent, &mut stream)));
    stream
}

/// The model's bytes, none where it refuses.
fn by_model(lent: &Import, stream: &mut Vec<u8>) {
    stream.extend(calls::import(lent, IMPORT_BYTES).unwrap_or_default());
}

/// The same in plain floats, without a look at node, command and target.
fn by_floats(lent: &Import, stream: &mut Vec<u8>) {
    let (seconds, dead_time) = (f32::from_bits(lent.seconds), f32::from_bits(lent.dead_time));
    let (node, command, target, difference) = (lent.node as u8, lent.command as u8, lent.target as u8, seconds - dead_time);
    if lent.kind == 1 {
        stream.extend_from_slice(&[0x15, 0, node, command]);
    } else if [seconds, dead_time].iter().all(|float| (0.0..f32::INFINITY).contains(float)) && (0.0..=65535.0).contains(&difference) {
        let [high, low] = (difference.ceil() as u16).to_be_bytes();
        stream.extend_from_slice(&[0x14, 0, node, command, 0, target, high, low]);
    }
}

/// Where a plan's time goes: lengths, book, sheet, and the rest, which is the tables, the search and the expansion; beside it the flat
/// search alone. In each round every column has another book where there are several, so that none finds its book looked at just before.
pub fn parts(name: &str, side: &Side) {
    let flats: Vec<Flat> = side.books.iter().map(|holding| Flat::of(&holding.book)).collect();
    let later = |round: usize, by: usize| (round + by) % (ROUNDS - ROUNDS % BOOKS);
    let times = medians(
        ROUNDS,
        vec![
            Box::new(|i, t: &mut Times| side.at(i).check_lengths(t)),
            Box::new(|i, t: &mut Times| side.at(later(i, 8)).check_book(t)),
            Box::new(|i, t: &mut Times| side.at(later(i, 16)).check_both(t)),
            Box::new(|i, t: &mut Times| {
                side.plan(later(i, 24), t);
            }),
            Box::new(|i, t: &mut Times| {
                timed(t, || search(&flats[later(i, 4) % flats.len()], side, later(i, 4)));
            }),
        ],
    );
    print_row(name, &[times[0], times[1], times[2] - times[1], times[3] - times[2], times[3], times[4]]);
}
