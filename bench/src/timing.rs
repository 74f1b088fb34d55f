//! Two sides timed in turn, A B A B .., and what is reported of them: the least time of each, which is what the machine can do when
//! nothing disturbs it, and how far single rounds spread.

use std::hint::black_box;
use std::time::{Duration, Instant};

const ROUNDS: usize = 401;
/// What one batch of calls takes, about, and one side of one round.
const BATCH: Duration = Duration::from_micros(20);
const ROUND: Duration = Duration::from_micros(200);

/// One way to do the work.
pub trait Timed {
    /// The time of so many calls.
    fn batch(&self, calls: usize) -> Duration;
    /// The most calls that a batch may have.
    fn most(&self) -> usize;
    /// Makes so many calls; what they need is prepared for `all` of them.
    fn calls(&self, calls: usize, all: usize);
}

/// A call that changes nothing that it is given.
pub struct Pure<C: Fn()> {
    pub call: C,
}

impl<C: Fn()> Timed for Pure<C> {
    fn batch(&self, calls: usize) -> Duration {
        let start = Instant::now();
        self.calls(calls, calls);
        start.elapsed()
    }

    fn most(&self) -> usize {
        1_000_000
    }

    fn calls(&self, calls: usize, _: usize) {
        for _ in 0..calls {
            (self.call)();
        }
    }
}

/// A call that changes what `prepare` makes outside the time.
pub struct Side<T, P: Fn() -> T, C: Fn(&mut T)> {
    pub prepare: P,
    pub call: C,
}

impl<T, P: Fn() -> T, C: Fn(&mut T)> Side<T, P, C> {
    fn prepared(&self, calls: usize) -> Vec<T> {
        (0..calls).map(|_| (self.prepare)()).collect()
    }

    fn call_each(&self, prepared: &mut [T]) {
        for one in prepared {
            (self.call)(black_box(one));
        }
    }
}

impl<T, P: Fn() -> T, C: Fn(&mut T)> Timed for Side<T, P, C> {
    fn batch(&self, calls: usize) -> Duration {
        let mut prepared = self.prepared(calls);
        let start = Instant::now();
        self.call_each(&mut prepared);
        let time = start.elapsed();
        black_box(&prepared);
        time
    }

    /// Few, so that what was prepared stays in the cache.
    fn most(&self) -> usize {
        32
    }

    fn calls(&self, calls: usize, all: usize) {
        let mut prepared = self.prepared(all);
        self.call_each(&mut prepared[..calls]);
        black_box(&prepared);
    }
}

/// What a row of the table shows: the least times of a call in nanoseconds, and between which ratios nine of ten rounds lie.
pub struct Row {
    name: String,
    proved: f64,
    second: f64,
    low: f64,
    high: f64,
}

/// Times both sides in turn.
pub fn time(name: &str, proved: &dyn Timed, second: &dyn Timed) -> Row {
    let (own_size, other_size) = (Size::of(proved), Size::of(second));
    let (mut own, mut other, mut ratios) = (f64::MAX, f64::MAX, Vec::new());
    for _ in 0..ROUNDS {
        let (a, b) = (round(proved, &own_size), round(second, &other_size));
        own = own.min(a);
        other = other.min(b);
        ratios.push(a / b);
    }
    ratios.sort_by(f64::total_cmp);
    Row {
        name: name.to_string(),
        proved: own,
        second: other,
        low: ratios[ROUNDS / 20],
        high: ratios[ROUNDS - 1 - ROUNDS / 20],
    }
}

/// How many calls a batch has, and how many batches a round.
struct Size {
    calls: usize,
    batches: usize,
}

impl Size {
    /// Also warms up.
    fn of(side: &dyn Timed) -> Size {
        let mut calls = 1;
        let mut time = side.batch(calls);
        while time < BATCH && calls < side.most() {
            calls *= 2;
            time = side.batch(calls);
        }
        let fitting = ROUND.as_nanos() / time.as_nanos().max(1);
        Size {
            calls,
            batches: fitting.clamp(1, 51) as usize,
        }
    }
}

/// The least of a round's batches.
fn round(side: &dyn Timed, size: &Size) -> f64 {
    let batch = |_| side.batch(size.calls).as_nanos() as f64 / size.calls as f64;
    (0..size.batches).map(batch).fold(f64::MAX, f64::min)
}

/// The table, in Markdown.
pub fn print(rows: &[Row]) {
    println!(
        "| call | proved, ns | second, ns | proved / second | nine of ten of {ROUNDS} rounds |"
    );
    println!("|---|---:|---:|---:|---:|");
    for row in rows {
        println!(
            "| {} | {} | {} | {:.2} | {:.2} .. {:.2} |",
            row.name,
            shown(row.proved),
            shown(row.second),
            row.proved / row.second,
            row.low,
            row.high
        );
    }
}

/// Of a short time, tenths too.
fn shown(nanoseconds: f64) -> String {
    let places = usize::from(nanoseconds < 100.0);
    format!("{nanoseconds:.places$}")
}
