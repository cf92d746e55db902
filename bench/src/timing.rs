//! Two pieces of work timed in turn, round by round, and what their times say.

use std::hint::black_box;
use std::time::Instant;

/// Times in microseconds, in the order measured.
#[derive(Clone, Default)]
pub struct Times(pub Vec<f64>);

impl Times {
    /// The time below which this share of the rounds lies; no number where nothing was timed.
    pub fn share(&self, share: f64) -> f64 {
        let mut sorted = self.0.clone();
        sorted.sort_by(f64::total_cmp);
        let last = sorted.len().saturating_sub(1) as f64;
        sorted.get((last * share).round() as usize).copied().unwrap_or(f64::NAN)
    }

    /// The time of the middle round.
    pub fn median(&self) -> f64 {
        self.share(0.5)
    }
}

/// Times one piece of work, and gives what it gives.
pub fn timed<T>(times: &mut Times, work: impl FnOnce() -> T) -> T {
    let begin = Instant::now();
    let result = black_box(work());
    times.0.push(begin.elapsed().as_nanos() as f64 / 1000.0);
    result
}

/// Two columns of times, measured in turn in the same rounds.
pub struct Pair {
    pub ours: Times,
    pub theirs: Times,
}

impl Pair {
    /// The ratio of each round.
    pub fn ratios(&self) -> Times {
        Times(self.ours.0.iter().zip(&self.theirs.0).map(|(a, b)| a / b).collect())
    }

    /// A row of ours against another side.
    pub fn print(&self, what: &str, against: &str) {
        let (a, b, r) = (self.ours.median(), self.theirs.median(), self.ratios());
        println!("{what:<38} {against:<34} {a:>9.2} {b:>9.2} {:>8.2}   {:.2} .. {:.2}", r.median(), r.share(0.1), r.share(0.9));
    }

    /// A row of ours after a change against the other side before it.
    pub fn print_change(&self, what: &str) {
        let r = self.ratios();
        let [before, after, ratio] = [self.theirs.median(), self.ours.median(), r.median()].map(number);
        println!("{what:<38} {before:>9} {after:>9} {ratio:>8}   {} .. {}", number(r.share(0.1)), number(r.share(0.9)));
    }
}

/// A number in a table, a dash where nothing was timed.
fn number(value: f64) -> String {
    if value.is_nan() {
        "-".to_string()
    } else {
        format!("{value:.2}")
    }
}

/// Runs the rounds; every second round the other side comes first. A side is made ready outside the clock.
pub fn rounds<A, B>(
    count: usize,
    mut ours: impl FnMut(usize, &mut Times) -> A,
    mut theirs: impl FnMut(usize, &mut Times) -> B,
    mut agree: impl FnMut(A, B),
) -> Pair {
    let mut pair = Pair { ours: Times::default(), theirs: Times::default() };
    for round in 0..count {
        let (a, b);
        if round % 2 == 0 {
            a = ours(round, &mut pair.ours);
            b = theirs(round, &mut pair.theirs);
        } else {
            b = theirs(round, &mut pair.theirs);
            a = ours(round, &mut pair.ours);
        }
        agree(a, b);
    }
    pair
}

/// One piece of work of a round: it is told the round, and what it times goes to its own column.
pub type Work<'a> = Box<dyn FnMut(usize, &mut Times) + 'a>;

/// The median times of several pieces of work, each done once in each round.
pub fn medians(count: usize, mut works: Vec<Work>) -> Vec<f64> {
    let mut columns = vec![Times::default(); works.len()];
    for round in 0..count {
        for (work, times) in works.iter_mut().zip(&mut columns) {
            work(round, times);
        }
    }
    columns.iter().map(Times::median).collect()
}

/// One row of a table: a name, and numbers in columns.
pub fn print_row(name: &str, numbers: &[f64]) {
    let columns: Vec<String> = numbers.iter().map(|n| format!("{n:>9.2}")).collect();
    println!("{name:<34} {}", columns.join(" "));
}

/// The head of such a table.
pub fn print_head(name: &str, heads: &[&str]) {
    let columns: Vec<String> = heads.iter().map(|h| format!("{h:>9}")).collect();
    println!();
    println!("{name:<34} {}", columns.join(" "));
}
