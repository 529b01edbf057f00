//! Histories of many lengths: right throughout, or with the first no at the start, in the middle or at the end.

use super::transcript::Transcript;
use crate::family::Family;
use capture::Random;

const LENGTHS: [usize; 10] = [0, 1, 2, 3, 5, 8, 13, 21, 34, 64];
const ROUNDS: usize = 3;

pub fn answers<F: Family>(random: &mut Random) -> String {
    let mut text = String::new();
    for _ in 0..ROUNDS {
        for length in LENGTHS {
            for wrong in [None, Some(0), Some(length / 2), length.checked_sub(1)] {
                let mut transcript = Transcript::<F>::starting(&F::random_start(random));
                transcript.history(history(&transcript.object, random, length, wrong));
                text += &transcript.text();
            }
        }
    }
    text
}

/// Right steps for this object, but for the one at the place `wrong`; those after it are right again
/// for the object that the wrong step leaves.
pub fn history<F: Family>(
    object: &F,
    random: &mut Random,
    length: usize,
    wrong: Option<usize>,
) -> Vec<(F::Op, F::Ret)> {
    let mut object = object.clone();
    (0..length)
        .map(|place| {
            if wrong == Some(place) {
                wrong_step(&mut object, random)
            } else {
                right_step(&mut object, random)
            }
        })
        .collect()
}

fn right_step<F: Family>(object: &mut F, random: &mut Random) -> (F::Op, F::Ret) {
    let op = object.random_operation(random);
    let ret = object.invoke(&op);
    (op, ret)
}

fn wrong_step<F: Family>(object: &mut F, random: &mut Random) -> (F::Op, F::Ret) {
    loop {
        let op = object.random_operation(random);
        let ret = object.random_return(random);
        let mut after = object.clone();
        if !after.is_valid_step(&op, &ret) {
            *object = after;
            return (op, ret);
        }
    }
}
