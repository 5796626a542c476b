//! Rows of two operations that do the same: measures them by turns, and prints what they cost or keeps it.

use std::hint::black_box;
use std::process::exit;
use std::time::{Duration, Instant};

/// How long one measurement runs, at least: short, so that many are not interrupted by other programs.
const SAMPLE: Duration = Duration::from_micros(200);
/// How long a row is measured, and how often each of the two, at least; the least time counts.
const ROW: Duration = Duration::from_millis(1_200);
const FEWEST: usize = 12;

/// Nanoseconds for one operation.
#[derive(Clone, Copy)]
pub struct Cost {
    pub proved: f64,
    pub plain: f64,
}

impl Cost {
    /// The three columns of a table.
    pub fn columns(self) -> String {
        format!("{:>11.1} {:>11.1} {:>6.2}", self.proved, self.plain, self.proved / self.plain)
    }
}

/// The names of these columns.
pub fn heads() -> String {
    format!("{:>11} {:>11} {:>6}", "proved", "plain", "ratio")
}

/// What is done with rows.
enum Ask {
    /// Those whose names have these words are measured and printed.
    Print(String),
    /// All are measured.
    Keep,
    /// The first whose name has these words is run so often on each side, without a clock, and nothing after it.
    Repeat { words: String, proved: u32, plain: u32 },
}

pub struct Table {
    ask: Ask,
    costs: Vec<Cost>,
}

impl Table {
    pub fn printed(words: String) -> Self {
        println!("{:<60} {}", "ns per operation, least of several", heads());
        Table { ask: Ask::Print(words), costs: Vec::new() }
    }

    pub fn kept() -> Self {
        Table { ask: Ask::Keep, costs: Vec::new() }
    }

    pub fn repeated(words: String, proved: u32, plain: u32) -> Self {
        Table { ask: Ask::Repeat { words, proved, plain }, costs: Vec::new() }
    }

    /// What was measured, in the order of the rows.
    pub fn costs(&self) -> &[Cost] {
        &self.costs
    }

    /// Times two operations that do the same.
    pub fn row<A, B>(&mut self, name: &str, ours: impl FnMut() -> A, plain: impl FnMut() -> B) {
        let (mut ours, mut plain) = (repeatable(ours), repeatable(plain));
        match &self.ask {
            Ask::Repeat { words, proved, plain: other } if name.contains(words) => {
                ours(*proved);
                plain(*other);
                println!("{name}");
                exit(0);
            }
            _ if self.measures(name) => self.add(name, by_turns(sampled(ours), sampled(plain))),
            _ => once(|| ours(1), || plain(1)),
        }
    }

    /// Times two batches of `count` operations each, which say what they took without their preparation. They are not repeated for a
    /// counter, which would count the preparation.
    pub fn batches(
        &mut self,
        name: &str,
        count: usize,
        ours: impl FnMut() -> Duration,
        plain: impl FnMut() -> Duration,
    ) {
        if self.measures(name) {
            self.add(name, by_turns(batched(count, ours), batched(count, plain)));
        } else {
            once(ours, plain);
        }
    }

    fn measures(&self, name: &str) -> bool {
        match &self.ask {
            Ask::Print(words) => name.contains(words),
            Ask::Keep => true,
            Ask::Repeat { .. } => false,
        }
    }

    fn add(&mut self, name: &str, cost: Cost) {
        if matches!(self.ask, Ask::Print(_)) {
            println!("{name:<60} {}", cost.columns());
        }
        self.costs.push(cost);
    }
}

/// A row that is not measured runs all the same: what both sides leave is compared after it.
fn once(mut ours: impl FnMut() -> Duration, mut plain: impl FnMut() -> Duration) {
    ours();
    plain();
}

/// By turns, so that a disturbance of the machine meets both.
fn by_turns(mut ours: impl FnMut() -> f64, mut plain: impl FnMut() -> f64) -> Cost {
    let begun = Instant::now();
    let mut least = Cost { proved: f64::MAX, plain: f64::MAX };
    let mut rounds = 0;
    while rounds < FEWEST || begun.elapsed() < ROW {
        least.proved = least.proved.min(ours());
        least.plain = least.plain.min(plain());
        rounds += 1;
    }
    least
}

/// An operation so many times, and what they take. The only place that calls it, so that it's compiled alike however often it runs.
fn repeatable<R>(mut operation: impl FnMut() -> R) -> impl FnMut(u32) -> Duration {
    move |times| {
        let begin = Instant::now();
        for _ in 0..times {
            black_box(operation());
        }
        begin.elapsed()
    }
}

/// A measurement of an operation, repeated as often as a sample needs: nanoseconds for one.
fn sampled(mut run: impl FnMut(u32) -> Duration) -> impl FnMut() -> f64 {
    let mut times = 1u32;
    while run(times) < SAMPLE {
        times *= 2;
    }
    move || nanoseconds(run(times)) / f64::from(times)
}

/// A measurement of batches: nanoseconds for one operation.
fn batched(count: usize, mut batch: impl FnMut() -> Duration) -> impl FnMut() -> f64 {
    move || {
        let (mut spent, mut batches) = (Duration::ZERO, 0);
        while spent < SAMPLE {
            spent += batch();
            batches += count;
        }
        nanoseconds(spent) / batches as f64
    }
}

/// What a part of a batch takes.
pub fn timed(part: impl FnOnce()) -> Duration {
    let begin = Instant::now();
    part();
    begin.elapsed()
}

fn nanoseconds(time: Duration) -> f64 {
    time.as_nanos() as f64
}
