//! The list of calls with what they must come to, which the program `replay` makes.

use crate::answer::Answer;
use crate::calls::{Batch, Call, Manner};
use crate::chosen;
use crate::due::due;
use crate::files::Kind;
use capture::Random;
use reference::ANSWER;
use std::fmt::Write;

/// Kinds of which files are drawn, and how many: those that are short, and no more than one to a draw.
const DRAWN: [(Kind, usize); 14] = [
    (Kind::Honest, 32),
    (Kind::Broken, 96),
    (Kind::Stale, 48),
    (Kind::Reordered, 40),
    (Kind::Wild, 24),
    (Kind::Flipped, 24),
    (Kind::Padded, 24),
    (Kind::Overlong, 12),
    (Kind::Unknown, 24),
    (Kind::HighThread, 12),
    (Kind::Full, 12),
    (Kind::SecondInvoke, 12),
    (Kind::StrayReturn, 12),
    (Kind::Noise, 24),
];

/// The longest file that is drawn.
const DRAWN_BYTES: usize = 600;

/// Attempts that are made on most files to learn how many the search needs, and on one in so many.
const ATTEMPTS: u64 = 5_000;
const MANY_ATTEMPTS: u64 = 20_000;
const ONE_IN: usize = 8;

/// The list; or, where the reference and stateright disagree, what about.
pub fn text() -> Result<String, String> {
    let mut random = Random::new(1);
    let mut batch = Batch::default();
    chosen::add_to(&mut batch, &mut random);
    for (kind, files) in DRAWN {
        for _ in 0..files {
            let file = drawn(kind, &mut random);
            let limit = match random.chance(1, ONE_IN) {
                true => MANY_ATTEMPTS,
                false => ATTEMPTS,
            };
            let manner = Manner {
                limit,
                one_budget: false,
                odd_calls: true,
            };
            batch.add(kind, file, manner, &mut random);
        }
    }
    batch.calls.iter().map(|call| line(&batch, call)).collect()
}

/// A file of the kind that fits into a line.
fn drawn(kind: Kind, random: &mut Random) -> Vec<u8> {
    loop {
        let file = kind.files(random).swap_remove(0);
        if file.len() <= DRAWN_BYTES {
            return file;
        }
    }
}

/// MODEL HIGH LOW ROOM Z n f1 … fn R k a1 … ak
fn line(batch: &Batch, call: &Call) -> Result<String, String> {
    let file = &batch.subjects[call.subject].file;
    let answer = due(batch, call).map_err(|says| {
        let (model, budget) = (call.model, call.budget);
        format!("model {model}, budget {budget}, file {file:?}: stateright says {says:?}")
    })?;
    let bytes = without(0, file);
    let mut line = String::new();
    let mut put = |number: u64| write!(line, "{number} ").expect("a string");
    put(call.model.into());
    put(call.budget >> 32);
    put(call.budget & u64::from(u32::MAX));
    put(call.buffer.len() as u64);
    put((file.len() - bytes.len()) as u64);
    counted(bytes, &mut put);
    put(answer.result.into());
    counted(written(&answer), &mut put);
    line.pop();
    line.push('\n');
    Ok(line)
}

/// n b1 … bn
fn counted(bytes: &[u8], mut put: impl FnMut(u64)) {
    put(bytes.len() as u64);
    bytes.iter().for_each(|byte| put((*byte).into()));
}

/// What was written into the buffer, without the thread numbers that are unused.
fn written(answer: &Answer) -> &[u8] {
    match answer.result {
        0 => without(255, &answer.buffer[..ANSWER]),
        _ => &[],
    }
}

/// The bytes without those at their end that are all this one.
fn without(last: u8, bytes: &[u8]) -> &[u8] {
    let length = bytes.iter().rposition(|byte| *byte != last);
    &bytes[..length.map_or(0, |at| at + 1)]
}
