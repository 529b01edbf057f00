//! Every order of a few events of two threads.

use super::transcript::{Kind, Transcript, KINDS};
use crate::family::Family;
use crate::testers::THREADS;
use capture::Random;

const EVENTS: u32 = 3;

pub fn sequences<F: Family>(random: &mut Random) -> String {
    let mut text = String::new();
    for events in 1..=EVENTS {
        for order in 0..choices().pow(events) {
            text += &sequence::<F>(order, events, random);
        }
    }
    text
}

/// A kind of event on one of two threads.
fn choices() -> usize {
    2 * KINDS.len()
}

/// The order's digits, one for an event, say which kind and which of the two threads.
fn sequence<F: Family>(mut order: usize, events: u32, random: &mut Random) -> String {
    let threads = two_threads(random);
    let mut transcript = Transcript::<F>::starting(random);
    for _ in 0..events {
        let (kind, thread) = choice(order % choices(), threads);
        transcript.event(kind, thread, random);
        order /= choices();
    }
    transcript.text()
}

fn choice(digit: usize, threads: [u32; 2]) -> (Kind, u32) {
    (KINDS[digit / 2], threads[digit % 2])
}

fn two_threads(random: &mut Random) -> [u32; 2] {
    let all: Vec<u32> = (0..THREADS).collect();
    let first = random.pick(&all);
    let others: Vec<u32> = all.into_iter().filter(|thread| *thread != first).collect();
    [first, random.pick(&others)]
}
