//! Long lives: operations, steps and short histories in any order on one object.

use super::histories;
use super::transcript::Transcript;
use crate::family::Family;
use capture::Random;

/// The steps of a short history, at most.
const SHORT: usize = 5;

pub fn answers<F: Family>(random: &mut Random, count: usize, length: usize) -> String {
    (0..count).map(|_| walk::<F>(random, length)).collect()
}

fn walk<F: Family>(random: &mut Random, length: usize) -> String {
    let mut transcript = Transcript::<F>::starting(&F::random_start(random));
    for _ in 0..length {
        match random.below(5) {
            0 | 1 => transcript.invoke(transcript.object.random_operation(random)),
            2 | 3 => {
                let (op, ret) = any_step(&transcript.object, random);
                transcript.step(op, ret);
            }
            _ => {
                let steps = random.below(SHORT + 1);
                let wrong = (random.below(2) == 0).then(|| random.below(SHORT));
                transcript.history(histories::history(&transcript.object, random, steps, wrong));
            }
        }
    }
    transcript.text()
}

/// A step with the right return as often as with any other.
fn any_step<F: Family>(object: &F, random: &mut Random) -> (F::Op, F::Ret) {
    let op = object.random_operation(random);
    let ret = match random.below(2) {
        0 => object.clone().invoke(&op),
        _ => object.random_return(random),
    };
    (op, ret)
}
