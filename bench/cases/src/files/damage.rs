//! Whole captures whose bytes or numbers were damaged.

use super::store::{any_use, honest, of_use, Use};
use capture::{padded, shortest, Random, OPENING};

/// The most operations of a capture that is cut everywhere: each cut is a file.
const CUT_OPERATIONS: usize = 8;

/// A capture, cut at each of its bytes.
pub fn cuts(random: &mut Random) -> Vec<Vec<u8>> {
    let usage = Use {
        operations: random.below(CUT_OPERATIONS + 1),
        ..any_use(random)
    };
    let whole = of_use(&usage, random).bytes();
    let cut = |at| whole[..at].to_vec();
    (0..=whole.len()).map(cut).collect()
}

/// One to three bits are changed.
pub fn flipped(random: &mut Random) -> Vec<u8> {
    let mut file = honest(random).bytes();
    for _ in 0..1 + random.below(3) {
        let at = random.below(file.len());
        file[at] ^= 1 << random.below(8);
    }
    file
}

/// Numbers of any width up to five bytes.
pub fn padded_numbers(random: &mut Random) -> Vec<u8> {
    let numbers = honest(random).numbers();
    let mut file = OPENING.to_vec();
    for number in numbers {
        let width = random.pick(&[1, 1, 2, 3, 4, 5]);
        file.extend(padded(number, width));
    }
    file
}

/// One number has more than five bytes, or a fifth byte above 15, or is the largest that there is.
pub fn overlong(random: &mut Random) -> Vec<u8> {
    let numbers = honest(random).numbers();
    let damaged = random.below(numbers.len());
    let fifth = random.byte();
    let mut file = OPENING.to_vec();
    for (at, number) in numbers.into_iter().enumerate() {
        if at != damaged {
            file.extend(shortest(number));
            continue;
        }
        match random.below(3) {
            0 => file.extend(padded(number, 6 + random.below(3))),
            1 => {
                file.extend(&padded(number, 5)[..4]);
                file.push(fifth);
            }
            _ => file.extend(shortest(u32::MAX)),
        }
    }
    file
}

/// One number is another: an object, count, flag, value, thread, operation or return.
pub fn unknown(random: &mut Random) -> Vec<u8> {
    let mut numbers = honest(random).numbers();
    // The first ones are the header's: they are damaged as often as all others together.
    let header = numbers.len().min(3);
    let at = match random.chance(1, 2) {
        true => random.below(header),
        false => random.below(numbers.len()),
    };
    let any = random.draw() as u32;
    numbers[at] = random.pick(&[
        0, 1, 2, 3, 4, 5, 32, 33, 34, 127, 128, 255, 256, 65_536, any,
    ]);
    let bytes = numbers.into_iter().flat_map(shortest);
    OPENING.into_iter().chain(bytes).collect()
}
