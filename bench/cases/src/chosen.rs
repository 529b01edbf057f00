//! Files that are chosen one by one, and not drawn.

mod captures;
mod headers;
mod limits;
mod numbers;

use crate::calls::{Batch, Call, Manner, NO_MODELS};
use crate::files::Kind;
use capture::Random;
use reference::ANSWER;

/// Attempts that are made at most: no search of these files needs as many.
const ATTEMPTS: u64 = 1_000;

/// Adds the chosen files, each with calls that have the answer's length of room and name a model; then one file with
/// calls of every other sort.
pub fn add_to(batch: &mut Batch, random: &mut Random) {
    let few = [headers::files(), limits::files()].concat();
    let many = [numbers::cuts(), numbers::damaged()].concat();
    for (files, one_budget) in [(few, false), (many, true)] {
        let manner = Manner {
            limit: ATTEMPTS,
            one_budget,
            odd_calls: false,
        };
        for (kind, file) in files {
            batch.add(kind, file, manner, random);
        }
    }
    let manner = Manner {
        limit: ATTEMPTS,
        one_budget: false,
        odd_calls: false,
    };
    batch.add(Kind::Honest, captures::trace_14().bytes(), manner, random);
    batch.calls.extend(odd_calls(batch.subjects.len() - 1));
}

/// Every sort of model with every sort of buffer, under the budget that trace 14 needs.
fn odd_calls(subject: usize) -> Vec<Call> {
    let models = [0, 1].into_iter().chain(NO_MODELS);
    let call = |model, room| Call {
        subject,
        model,
        budget: 2,
        buffer: vec![0; room],
        covered: true,
    };
    let rooms = [0, 1, 15, ANSWER - 1, ANSWER, ANSWER + 1, 100];
    models
        .flat_map(|model| rooms.map(|room| call(model, room)))
        .collect()
}
