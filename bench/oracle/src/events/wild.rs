//! Any events in any order, on a few threads or on all.

use super::transcript::{Transcript, KINDS};
use crate::family::Family;
use crate::testers::THREADS;
use capture::Random;

const COUNT: usize = 300;

/// The events of a sequence, at most.
const EVENTS: usize = 16;

pub fn sequences<F: Family>(random: &mut Random) -> String {
    (0..COUNT).map(|_| sequence::<F>(random)).collect()
}

fn sequence<F: Family>(random: &mut Random) -> String {
    let mut transcript = Transcript::<F>::starting(random);
    let threads = 1 + random.below(THREADS as usize);
    let events = 1 + random.below(EVENTS);
    followed_by(&mut transcript, events, threads, random);
    transcript.text()
}

/// This many events whatever, but for an operation that a full tester has no room for.
pub fn followed_by<F: Family>(
    transcript: &mut Transcript<F>,
    events: usize,
    threads: usize,
    random: &mut Random,
) {
    for _ in 0..events {
        let kind = random.pick(&KINDS);
        let thread = random.below(threads) as u32;
        if !transcript.is_beyond(kind, thread) {
            transcript.event(kind, thread, random);
        }
    }
}
