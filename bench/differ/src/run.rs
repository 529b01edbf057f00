//! A whole run.

use crate::compare::{compare, Difference};
use crate::judge::answers;
use crate::tally::Tally;
use capture::Random;
use cases::answer::Judge;
use cases::calls::{Batch, Manner};
use cases::files::Kind;

/// Calls that are made on one thread.
const BATCH: usize = 1_000;

/// A capture cut everywhere makes many files, so it has its turn once in so many times.
const CUT_ONCE_IN: usize = 5;

/// Attempts that are made on most files to learn how many the search needs, and on one in so many.
const ATTEMPTS: u64 = 5_000;
const MANY_ATTEMPTS: u64 = 200_000;
const ONE_IN: usize = 100;

/// So many cases made from the seed, each kind of file in turn; what differs is told one by one.
pub fn run(judge: Judge, cases: u64, seed: u64, mut told: impl FnMut(Difference)) -> Tally {
    let mut random = Random::new(seed);
    let mut kinds = Kind::ALL.into_iter().cycle();
    let mut tally = Tally::default();
    while tally.cases < cases {
        let mut batch = Batch::default();
        while batch.calls.len() < BATCH {
            let kind = kinds.next().expect("kinds without end");
            if kind == Kind::Cut && !random.chance(1, CUT_ONCE_IN) {
                continue;
            }
            for file in kind.files(&mut random) {
                let limit = match random.chance(1, ONE_IN) {
                    true => MANY_ATTEMPTS,
                    false => ATTEMPTS,
                };
                let manner = Manner {
                    limit,
                    one_budget: kind == Kind::Cut,
                    odd_calls: true,
                };
                batch.add(kind, file, manner, &mut random);
            }
        }
        let left = usize::try_from(cases - tally.cases).unwrap_or(usize::MAX);
        batch.calls.truncate(left);
        for (call, answer) in batch.calls.iter().zip(answers(judge, &batch)) {
            let difference = compare(&batch, call, &answer);
            tally.add(&batch, call, &answer, difference.is_some());
            difference.into_iter().for_each(&mut told);
        }
    }
    tally
}
