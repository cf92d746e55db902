//! The proved library against a flat binary-heap Dijkstra search and against the plain model, or against another build of itself, on the
//! same books in one run.

mod change;
mod growth;
mod holding;
mod library;
mod rows;
mod side;
mod timing;

use himm_model::flat::Flat;
use holding::{Holding, PLAN_BYTES};
use library::Library;
use rows::Agreement;
use side::{half_full, held, kinds, with_leaves, Side};
use timing::{print_head, timed, Times};

/// Takes the library's shared object and, for the table of a change, that of the library before it.
fn main() {
    let paths: Vec<String> = std::env::args().skip(1).collect();
    let mut agreement = Agreement::default();
    println!(
        "Times are medians in microseconds; a ratio is the median of the rounds' own ratios, with those of the 10th and the 90th percent."
    );
    println!("Buffers: plan buffers and outputs are filled before each call and books copied, both outside the clock.");
    match &paths[..] {
        [ours] => tables(Library::open(ours), &mut agreement),
        [ours, before] => change::table(Library::open(before), Library::open(ours), &mut agreement),
        _ => panic!("one shared object of the library, or two"),
    }
    println!();
    println!("Answers compared: {}; both sides agreed on {}.", agreement.compared, agreement.compared - agreement.differed);
    if agreement.differed > 0 {
        std::process::exit(1);
    }
}

/// The tables of one library.
fn tables(library: &'static Library, agreement: &mut Agreement) {
    let kinds = kinds(library);
    println!("The two sides of a row, and the columns of the later tables, take turns round by round; in the first two tables each round has the next book.");
    println!("Our calls check lengths, book and sheet each time; the flat search and the model's load trust theirs.");
    noise(kinds[0].1.at(0));
    println!();
    println!("{:<38} {:<34} {:>9} {:>9} {:>8}   10 % .. 90 %", "ours", "against", "ours", "other", "ratio");
    for (name, side) in &kinds {
        rows::all(name, side, agreement);
    }
    for (name, side) in [("random books with holds", held(library)), ("random books with costs of leaving", with_leaves(library))] {
        rows::all(name, &side, agreement);
        compare_all(side.at(0), agreement);
    }
    rows::merges("half-full random books", &half_full(library), agreement);
    rows::tables(&kinds[0].1, agreement);
    rows::imports(&kinds[0].1, agreement);
    parts(&kinds);
    grown(library, &kinds, agreement);
    for (_, side) in &kinds {
        compare_all(side.at(0), agreement);
    }
    again(&kinds, agreement);
}

/// One book of each kind again and again, which the processor learns.
fn again(kinds: &[(&str, Side)], agreement: &mut Agreement) {
    println!();
    println!("one book of each kind again and again");
    for (name, side) in kinds {
        println!("{name}");
        rows::again(&side.first(), agreement);
    }
}

/// The same work again and again: what the machine adds by itself.
fn noise(holding: &Holding) {
    let mut times = Times::default();
    for _ in 0..2000 {
        timed(&mut times, || Flat::of(&holding.book));
    }
    let [low, middle, high, worst] = [0.1, 0.5, 0.9, 1.0].map(|share| times.share(share));
    println!("Noise: one flattening timed 2,000 times takes {middle:.2}; 10 % under {low:.2}, 10 % over {high:.2}, at worst {worst:.2}.");
    if let Ok(load) = std::fs::read_to_string("/proc/loadavg") {
        let processors = std::thread::available_parallelism().map_or(0, usize::from);
        println!("Load averages at the start: {} on {processors} processors.", load.split(' ').take(3).collect::<Vec<_>>().join(" "));
    }
}

/// Every pair of some states once more, untimed: the cost of the library and of the flat search.
fn compare_all(holding: &Holding, agreement: &mut Agreement) {
    let flat = Flat::of(&holding.book);
    for from in holding.tree.states().into_iter().step_by(8) {
        let costs = flat.costs_from(from);
        for to in holding.tree.states() {
            let pair = (from as u32, to as u32);
            agreement.of(holding.library.plan(&holding.book, &holding.sheet, pair, &mut [0; PLAN_BYTES]).ok(), costs[to]);
        }
    }
}

/// The table of the parts of a plan.
fn parts(kinds: &[(&str, Side)]) {
    print_head("parts of a plan", &["lengths", "book", "sheet", "the rest", "plan", "search"]);
    for (name, side) in kinds {
        rows::parts(name, side);
    }
}

/// The tables of how costs grow.
fn grown(library: &'static Library, kinds: &[(&str, Side)], agreement: &mut Agreement) {
    growth::by_states(library, agreement);
    growth::by_levels(library, agreement);
    print_head("by edits", &["refresh", "all stale", "ratio"]);
    for (name, side) in kinds {
        growth::by_edits(name, side.at(0));
    }
    growth::by_bytes(library);
}
