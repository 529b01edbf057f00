//! The generator of what is timed (a linear congruential one): the same inputs on every machine, and at every
//! commit, so that times can be compared with earlier ones. The tests draw by `capture::random`.

/// A number of 31 bits.
pub fn next(state: &mut u64) -> usize {
    *state = state
        .wrapping_mul(6364136223846793005)
        .wrapping_add(1442695040888963407);
    (*state >> 33) as usize
}

/// One of these.
pub fn pick<T: Copy>(state: &mut u64, from: &[T]) -> T {
    from[next(state) % from.len()]
}
