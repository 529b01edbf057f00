//! Any bytes.

use super::family;
use capture::{Capture, Random, OPENING};

const LENGTH: usize = 100;

/// Any bytes, behind nothing, the opening bytes or a whole header; most often small ones, which are numbers
/// of their own.
pub fn noise(random: &mut Random) -> Vec<u8> {
    let mut file = match random.below(4) {
        0 => Vec::new(),
        1 => OPENING.to_vec(),
        _ => Capture::of(family::start(random)).bytes(),
    };
    let small = random.chance(2, 3);
    for _ in 0..random.below(LENGTH) {
        let byte = random.byte();
        file.push(if small { byte % 18 } else { byte });
    }
    file
}
