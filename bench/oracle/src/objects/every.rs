//! Every operation, and every step, from each of a few starts.

use super::transcript::Transcript;
use crate::family::Family;

pub fn answers<F: Family>() -> String {
    F::starts()
        .iter()
        .map(|start| invokes::<F>(start) + &steps::<F>(start))
        .collect()
}

fn invokes<F: Family>(start: &[i32]) -> String {
    let ask = |op| {
        let mut transcript = Transcript::<F>::starting(start);
        transcript.invoke(op);
        transcript.text()
    };
    F::operations().into_iter().map(ask).collect()
}

fn steps<F: Family>(start: &[i32]) -> String {
    let mut text = String::new();
    for ret_index in 0..F::returns().len() {
        for op in F::operations() {
            let ret = F::returns().swap_remove(ret_index);
            let mut transcript = Transcript::<F>::starting(start);
            transcript.step(op, ret);
            text += &transcript.text();
        }
    }
    text
}
