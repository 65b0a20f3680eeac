//! Times of a call on both sides, by turns.

use std::hint::black_box;
use std::time::{Duration, Instant};

/// How long the calls of one measurement take at least.
const BATCH: Duration = Duration::from_millis(8);

/// Nanoseconds a call.
pub struct Times {
    pub rust: f64,
    pub ours: f64,
}

/// The best of so many rounds. In each round one side is measured and then the other, so that a slow spell of the machine meets both.
/// A side is handed the number of the call.
pub fn best<A, B>(
    rounds: usize,
    mut rust: impl FnMut(usize) -> A,
    mut ours: impl FnMut(usize) -> B,
) -> Times {
    let (many, more) = (batch(&mut rust), batch(&mut ours));
    let mut times = Times {
        rust: f64::INFINITY,
        ours: f64::INFINITY,
    };
    for _ in 0..rounds {
        times.rust = times.rust.min(nanoseconds(many, &mut rust));
        times.ours = times.ours.min(nanoseconds(more, &mut ours));
    }
    times
}

/// The number of calls of one measurement.
fn batch<A>(call: &mut impl FnMut(usize) -> A) -> usize {
    let mut count = 1;
    while elapsed(count, call) < BATCH {
        count *= 2;
    }
    count
}

fn nanoseconds<A>(count: usize, call: &mut impl FnMut(usize) -> A) -> f64 {
    elapsed(count, call).as_nanos() as f64 / count as f64
}

/// The answers are handed to `black_box`, so that no call is left out; what a call allocates is freed before the clock is read.
fn elapsed<A>(count: usize, call: &mut impl FnMut(usize) -> A) -> Duration {
    let start = Instant::now();
    for i in 0..count {
        drop(black_box(call(black_box(i))));
    }
    start.elapsed()
}
