//! Medians of many short times.

use std::hint::black_box;
use std::time::Instant;

pub const ROUNDS: usize = 400;
pub const BATCH: usize = 64;

pub fn median(mut times: Vec<f64>) -> f64 {
    times.sort_by(f64::total_cmp);
    times[times.len() / 2]
}

/// Nanoseconds of one of `count` turns.
pub fn nanoseconds(count: usize, mut turn: impl FnMut()) -> f64 {
    let clock = Instant::now();
    for _ in 0..count {
        turn();
    }
    clock.elapsed().as_nanos() as f64 / count as f64
}

/// What reading the clock twice takes.
pub fn overhead() -> f64 {
    median((0..4_000).map(|_| nanoseconds(1, || ())).collect())
}

/// A value that must be made, and then is not needed.
pub fn seen<T>(value: T) {
    black_box(value);
}
