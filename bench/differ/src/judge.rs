//! The judge that is run, on a thread with a small stack.

use cases::answer::{answer, Answer, Judge};
use cases::calls::Batch;
use std::thread::{scope, Builder};

/// The stack of the thread that judges.
pub const STACK: usize = 256 * 1024;

/// Makes all calls of a batch, on a thread with a stack of [`STACK`] bytes.
pub fn answers(judge: Judge, batch: &Batch) -> Vec<Answer> {
    scope(|scope| {
        let calls = || batch.calls.iter();
        let all = move || calls().map(|call| answer(judge, batch, call)).collect();
        let thread = Builder::new().stack_size(STACK).spawn_scoped(scope, all);
        thread.expect("a thread").join().expect("all calls")
    })
}
