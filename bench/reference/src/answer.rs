//! The host call: a file, a model and a budget in, 79 bytes out.

use crate::reading::load;
use crate::search::{judge, Judged, Verdict};
use crate::Model;

/// The bytes of an answer.
pub const ANSWER: usize = 79;

const THREAD_NUMBERS: usize = 15;

/// What the exported call returns, and leaves in the buffer. "For the host call 10 precedes 11."
pub fn host_call(file: &[u8], model: u32, budget: u64, answer: &mut [u8]) -> u32 {
    let Some(answer) = answer.get_mut(..ANSWER) else {
        return 10;
    };
    let model = match model {
        0 => Model::Sequential,
        1 => Model::Linearizable,
        _ => return 11,
    };
    answer.copy_from_slice(&answer_of(file, model, budget));
    0
}

/// "Verdict; refusal number or 0; order length; attempts, 8 bytes little-endian; place, 4 bytes
/// little-endian; 64 thread numbers, 255 where unused. Loading refusals 4 and 5 give verdict 3, others 4;
/// then length and attempts are 0."
fn answer_of(file: &[u8], model: Model, budget: u64) -> [u8; ANSWER] {
    let loaded = load(file);
    let (verdict, order, attempts) = match loaded.number {
        0 => verdict_of(judge(&loaded.tester, model, budget)),
        4 | 5 => (3, Vec::new(), 0),
        _ => (4, Vec::new(), 0),
    };
    let mut answer = [255; ANSWER];
    answer[0] = verdict;
    answer[1] = loaded.number;
    answer[2] = order.len() as u8;
    answer[3..11].copy_from_slice(&attempts.to_le_bytes());
    answer[11..15].copy_from_slice(&loaded.place.to_le_bytes());
    answer[THREAD_NUMBERS..][..order.len()].copy_from_slice(&order);
    answer
}

fn verdict_of(judged: Judged) -> (u8, Vec<u8>, u64) {
    match judged.verdict {
        Verdict::Order(order) => (0, order, judged.attempts),
        Verdict::NoOrder => (1, Vec::new(), judged.attempts),
        Verdict::Undecided => (2, Vec::new(), judged.attempts),
        Verdict::Invalid => (3, Vec::new(), judged.attempts),
    }
}
