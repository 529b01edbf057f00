//! Orderly lives: a thread that is busy returns, one that is not invokes, up to a number of operations.
//! Then some end in an event that is refused, and in any events after it.

use super::transcript::{Kind, Transcript};
use super::wild;
use crate::family::Family;
use crate::testers::{OPERATIONS, THREADS};
use capture::Random;

/// The refused event that ends the order, if any: an invoke or both calls on a busy thread, a return of
/// one that is not.
const ENDS: [Option<Kind>; 4] = [
    None,
    Some(Kind::Invoke),
    Some(Kind::Return),
    Some(Kind::Invret),
];

/// The events that come after, at most.
const AFTER: usize = 4;

pub fn sequences<F: Family>(random: &mut Random) -> String {
    [
        lives::<F>(60, 1, 12, random),
        lives::<F>(8, 13, OPERATIONS - 1, random),
        lives::<F>(8, OPERATIONS, OPERATIONS, random),
    ]
    .concat()
}

/// This many lives for each end, of `least` to `most` operations.
fn lives<F: Family>(count: usize, least: usize, most: usize, random: &mut Random) -> String {
    let mut text = String::new();
    for _ in 0..count {
        for end in ENDS {
            let operations = least + random.below(most - least + 1);
            text += &life::<F>(operations, end, random);
        }
    }
    text
}

fn life<F: Family>(operations: usize, end: Option<Kind>, random: &mut Random) -> String {
    let mut transcript = Transcript::<F>::starting(random);
    let threads = 1 + random.below(THREADS as usize);
    while transcript.len() < operations {
        in_order(&mut transcript, threads, random);
    }
    if let Some(kind) = end {
        refused(&mut transcript, kind, random);
    }
    let after = random.below(AFTER + 1);
    wild::followed_by(&mut transcript, after, THREADS as usize, random);
    transcript.text()
}

/// An event that is recorded.
fn in_order<F: Family>(transcript: &mut Transcript<F>, threads: usize, random: &mut Random) {
    let thread = random.below(threads) as u32;
    let kind = if transcript.is_busy(thread) {
        Kind::Return
    } else {
        random.pick(&[Kind::Invoke, Kind::Invoke, Kind::Invret])
    };
    transcript.event(kind, thread, random);
}

/// An event that is refused, if there is a thread on which it would be.
fn refused<F: Family>(transcript: &mut Transcript<F>, kind: Kind, random: &mut Random) {
    let refuses = |thread: &u32| transcript.is_busy(*thread) == (kind != Kind::Return);
    let threads: Vec<u32> = (0..THREADS).filter(refuses).collect();
    if !threads.is_empty() {
        transcript.event(kind, random.pick(&threads), random);
    }
}
