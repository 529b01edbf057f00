//! How each file is judged: models, budgets and buffers.

use crate::files::Kind;
use crate::rust::{self, Says};
use capture::Random;
use reference::{judge, load, Loaded, Model, Verdict, ANSWER};

/// A file with what is known of it.
pub struct Subject {
    pub kind: Kind,
    pub file: Vec<u8>,
    pub rust: Says,
}

/// A call of the judge on one of the subjects.
pub struct Call {
    pub subject: usize,
    pub model: u32,
    pub budget: u64,
    /// What the buffer holds before the call.
    pub buffer: Vec<u8>,
    /// Whether the budget covers the search, so that stateright has a say.
    pub covered: bool,
}

/// How a file is judged.
#[derive(Clone, Copy)]
pub struct Manner {
    /// Attempts that are made at most to learn how many the search needs.
    pub limit: u64,
    /// Whether each model gets one budget only, as the file is one of many that are alike.
    pub one_budget: bool,
    /// Whether some calls name no model, or come with another buffer than one that has just the answer's length.
    pub odd_calls: bool,
}

/// Calls to be made, and the files that they are about.
#[derive(Default)]
pub struct Batch {
    pub subjects: Vec<Subject>,
    pub calls: Vec<Call>,
}

impl Batch {
    /// Adds a file with some calls: both models under the budgets that matter.
    pub fn add(&mut self, kind: Kind, file: Vec<u8>, manner: Manner, random: &mut Random) {
        let loaded = load(&file);
        let needs = [Model::Sequential, Model::Linearizable]
            .map(|model| attempts_needed(&loaded, model, manner.limit));
        let subject = self.subjects.len();
        for (model, need) in (0..).zip(needs) {
            for budget in budgets(need, manner, random) {
                let (model, buffer) = match manner.odd_calls {
                    true => surroundings(model, random),
                    false => (model, vec![0; ANSWER]),
                };
                self.calls.push(Call {
                    subject,
                    model,
                    budget,
                    buffer,
                    covered: need.is_some_and(|need| need <= budget),
                });
            }
        }
        let rust = rust::says(
            &loaded,
            needs.map(|need| need.is_some() && loaded.number == 0),
        );
        self.subjects.push(Subject { kind, file, rust });
    }
}

/// How many attempts the unlimited search needs, if that is within the limit; none where the file is refused.
fn attempts_needed(loaded: &Loaded, model: Model, limit: u64) -> Option<u64> {
    if loaded.number != 0 {
        return Some(0);
    }
    let judged = judge(&loaded.tester, model, limit);
    (judged.verdict != Verdict::Undecided).then_some(judged.attempts)
}

/// None, one short, exact, and a larger one; where the search is too long, the limit and less. One of these, where
/// one will do.
fn budgets(need: Option<u64>, manner: Manner, random: &mut Random) -> Vec<u64> {
    let any = random.draw() >> random.below(64);
    let budgets = match need {
        Some(0) => vec![0, any],
        Some(need) => {
            // Large as a whole, small in its lowest bits.
            let high = (1 << random.pick(&[8, 16, 32, 48, 63])) | (any % need);
            let larger = random.pick(&[need + 1, u64::MAX, need.max(any), need.max(high)]);
            vec![0, need - 1, need, larger]
        }
        None => vec![manner.limit, any % manner.limit],
    };
    match manner.one_budget {
        true => vec![random.pick(&budgets)],
        false => budgets,
    }
}

/// Numbers that stand for no model; most have a 0 or a 1 in their lowest bits.
pub const NO_MODELS: [u32; 9] = [2, 3, 255, 256, 257, 65_536, 65_537, 1 << 31, u32::MAX];

/// Most often the model and a buffer that is long enough; at times another model, or a short buffer.
fn surroundings(model: u32, random: &mut Random) -> (u32, Vec<u8>) {
    let model = match random.below(48) {
        0 => random.pick(&NO_MODELS),
        1 => (random.draw() as u32).max(2),
        _ => model,
    };
    let length = match random.below(32) {
        0 => random.below(ANSWER),
        1 => ANSWER - 1,
        2..8 => ANSWER + random.below(22),
        _ => ANSWER,
    };
    (model, (0..length).map(|_| random.byte()).collect())
}
