//! Least times of calls.

use std::hint::black_box;
use std::time::{Duration, Instant};

/// How long one measurement of both sides may take, and how many calls it makes at least.
const LONGEST: Duration = Duration::from_millis(200);
const FEWEST: usize = 20;

/// The least times of a call of ours and of the Rust's, in nanoseconds.
#[derive(Clone, Copy)]
pub struct Times {
    pub ours: f64,
    pub rust: f64,
}

impl Times {
    /// Our time as a part of the Rust's.
    pub fn ratio(&self) -> f64 {
        self.ours / self.rust
    }
}

/// The time of one call. What it gives is freed after the clock has stopped.
pub fn timed<T>(call: impl FnOnce() -> T) -> Duration {
    let start = Instant::now();
    let result = black_box(call());
    let time = start.elapsed();
    drop(result);
    time
}

/// The least time that the clock itself shows.
fn clock() -> Duration {
    (0..1000).map(|_| timed(|| ())).min().expect("a time")
}

/// The least times of both sides over many calls in turn, less that of the clock.
pub fn least(mut ours: impl FnMut() -> Duration, mut rust: impl FnMut() -> Duration) -> Times {
    let clock = clock();
    let (mut our_least, mut rust_least) = (Duration::MAX, Duration::MAX);
    let start = Instant::now();
    let mut calls = 0;
    while calls < FEWEST || start.elapsed() < LONGEST {
        our_least = our_least.min(ours());
        rust_least = rust_least.min(rust());
        calls += 1;
    }
    let nanoseconds = |time: Duration| time.saturating_sub(clock).as_nanos().max(1) as f64;
    Times { ours: nanoseconds(our_least), rust: nanoseconds(rust_least) }
}
