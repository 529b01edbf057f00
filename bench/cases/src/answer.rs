//! Calling a judge.

use crate::calls::{Batch, Call};

/// A judge in the form of the exported call: file, model, budget and buffer in, a result out.
pub type Judge = fn(&[u8], u32, u64, &mut [u8]) -> u32;

/// What a call came to: its result, and the buffer after it.
#[derive(Clone, Debug, PartialEq)]
pub struct Answer {
    pub result: u32,
    pub buffer: Vec<u8>,
}

/// Makes one call.
pub fn answer(judge: Judge, batch: &Batch, call: &Call) -> Answer {
    let file = &batch.subjects[call.subject].file;
    let mut buffer = call.buffer.clone();
    let result = judge(file, call.model, call.budget, &mut buffer);
    Answer { result, buffer }
}
