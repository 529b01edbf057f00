//! A capture of each family, with each of its bytes and numbers damaged in turn.

use super::captures::of_each_family;
use crate::files::Kind;
use capture::{padded, shortest, OPENING};

/// Cut at each byte.
pub fn cuts() -> Vec<(Kind, Vec<u8>)> {
    let cuts = |whole: Vec<u8>| {
        let cut = |at| (Kind::Cut, whole[..at].to_vec());
        (0..whole.len()).map(cut).collect::<Vec<_>>()
    };
    let wholes = of_each_family().map(|capture| capture.bytes());
    wholes.into_iter().flat_map(cuts).collect()
}

/// Each number in turn with groups of zero behind it, five and six bytes long; with a fifth byte of 15 and of 16.
pub fn damaged() -> Vec<(Kind, Vec<u8>)> {
    let mut files = Vec::new();
    for capture in of_each_family() {
        let numbers = capture.numbers();
        for (at, number) in numbers.iter().enumerate() {
            let with = |bytes: Vec<u8>| {
                let [before, after] = [&numbers[..at], &numbers[at + 1..]].map(sent);
                [OPENING.to_vec(), before, bytes, after].concat()
            };
            let fifth = |byte| [&padded(*number, 5)[..4], &[byte]].concat();
            files.push((Kind::Padded, with(padded(*number, 5))));
            files.push((Kind::Overlong, with(padded(*number, 6))));
            files.push((Kind::Overlong, with(fifth(15))));
            files.push((Kind::Overlong, with(fifth(16))));
        }
    }
    files
}

fn sent(numbers: &[u32]) -> Vec<u8> {
    numbers.iter().copied().flat_map(shortest).collect()
}
