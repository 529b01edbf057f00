//! Captures and files at the limits: 64 operations, 65,536 bytes.

use super::broken::is_busy;
use super::family;
use super::store::{any_use, honest, of_use, Use};
use super::timeline::wild;
use capture::{padded, Capture, Random};

const OPERATIONS: usize = 64;
const FILE: usize = 65_536;

/// A capture of 64 operations, and then an invoke; most often on an idle thread, where it has no room.
pub fn full(random: &mut Random) -> Capture {
    let usage = Use {
        operations: OPERATIONS,
        overlap: random.pick(&[0, 0, 5, 20]),
        ..any_use(random)
    };
    let mut capture = of_use(&usage, random);
    let busy = random.chance(1, 4);
    let threads: Vec<u32> = (0..8)
        .filter(|thread| is_busy(&capture.events, *thread) == busy)
        .collect();
    if !threads.is_empty() {
        let op = family::operation(&capture.start, random);
        capture = capture.invoke(random.pick(&threads), op);
    }
    // Nothing that follows is read.
    if random.chance(1, 2) {
        capture.events.extend(wild(random).events);
    }
    capture
}

/// A capture, or just any bytes, made about as long as a file may be, or far longer.
pub fn long(random: &mut Random) -> Vec<u8> {
    let beyond = FILE + random.below(40_000);
    let length = random.pick(&[FILE - 1, FILE, FILE + 1, FILE + 2, beyond]);
    let mut file = honest(random).bytes();
    match random.below(3) {
        // Any bytes.
        0 => file.resize_with(length, || random.byte()),
        // The same byte on and on.
        1 => file.resize(length, random.byte()),
        // Thread 0 invokes operation 1 and gets return 0, on and on, in five bytes a number.
        _ => {
            let events: Vec<u8> = [0, 1, 1, 0].iter().flat_map(|n| padded(*n, 5)).collect();
            let room = length - file.len();
            file.extend(events.into_iter().cycle().take(room));
        }
    }
    file
}
