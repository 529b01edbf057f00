//! Files that end with their header, or within it.

use super::captures::trace_14;
use crate::files::Kind;
use capture::{shortest, Capture, Object, OPENING};

pub fn files() -> Vec<(Kind, Vec<u8>)> {
    let openings = openings().into_iter().map(|file| (Kind::Noise, file));
    let starts = starts().into_iter().map(|file| (Kind::Honest, file));
    let numbers = numbers().into_iter().map(|file| (Kind::Unknown, file));
    openings.chain(starts).chain(numbers).collect()
}

/// The opening bytes up to each of them, the empty file first; and a capture with each of them changed.
fn openings() -> Vec<Vec<u8>> {
    let cut = |length| OPENING[..length].to_vec();
    let changed = |at| {
        let mut file = trace_14().bytes();
        file[at] ^= 32;
        file
    };
    let lengths = 0..=OPENING.len();
    lengths
        .map(cut)
        .chain((0..OPENING.len()).map(changed))
        .collect()
}

/// Captures without events; the first two start with the values of trace 13.
fn starts() -> Vec<Vec<u8>> {
    [
        Object::Register(-1),
        Object::Register(i32::MIN),
        Object::WriteOnce(None),
        Object::WriteOnce(Some(i32::MIN)),
        Object::Stack(Vec::new()),
        Object::Stack(vec![-1; 32]),
    ]
    .map(|start| Capture::of(start).bytes())
    .to_vec()
}

/// Numbers that stand for no object, no flag or no stack that a tester can start with; and numbers that come to an end,
/// of which the last is the fifth byte of trace 13 with more behind it.
fn numbers() -> Vec<Vec<u8>> {
    let of = |numbers: &[u32]| numbers.iter().copied().flat_map(shortest).collect();
    let mut headers: Vec<Vec<u8>> = vec![
        of(&[3]),
        of(&[256, 0]),
        of(&[u32::MAX]),
        of(&[1, 2]),
        of(&[1, 256]),
        of(&[2, 33]),
        of(&[2, 288]),
        of(&[2, u32::MAX]),
        of(&[[2, 32].as_slice(), &[1; 31]].concat()),
        of(&[[2, 33].as_slice(), &[1; 33]].concat()),
    ];
    let fifth = |byte| vec![0, 255, 255, 255, 255, byte];
    headers.extend([fifth(15), fifth(16)]);
    headers.push([fifth(16), vec![0; 8]].concat());
    headers
        .into_iter()
        .map(|header| [OPENING.to_vec(), header].concat())
        .collect()
}
