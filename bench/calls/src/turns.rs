//! Measuring turn and turn about.

use std::hint::black_box;
use std::time::Instant;

/// What is timed at once takes this many nanoseconds at least, far more than reading the clock.
const SPAN: f64 = 100_000.0;

/// Nanoseconds a call, where this makes so many.
pub fn nanoseconds(calls: u64, run: impl FnOnce() -> u64) -> f64 {
    let begun = Instant::now();
    black_box(run());
    begun.elapsed().as_nanos() as f64 / calls as f64
}

/// How many times fill the span.
pub fn enough(run: impl Fn(u64) -> u64) -> u64 {
    let mut times = 1;
    while nanoseconds(1, || run(times)) < SPAN {
        times *= 2;
    }
    times
}

/// The least of each one's times over so many turns: what else the machine does only adds.
pub fn least<const N: usize>(turns: usize, mut turn: impl FnMut() -> [f64; N]) -> [f64; N] {
    let mut least = [f64::INFINITY; N];
    for _ in 0..turns {
        let times = turn();
        least = std::array::from_fn(|i| least[i].min(times[i]));
    }
    least
}
