//! How many answers there were, by the kind of their file and what they were.

use cases::answer::Answer;
use cases::calls::{Batch, Call};
use cases::files::Kind;
use cases::rust::Search;
use std::collections::BTreeMap;
use std::fmt;

/// What an answer may be: a verdict, or a refusal of the call.
const ANSWERS: [&str; 7] = [
    "Order",
    "No order",
    "Undecided",
    "Invalid",
    "refused",
    "10",
    "11",
];

#[derive(Default)]
pub struct Tally {
    pub cases: u64,
    pub differ: u64,
    /// Cases in which stateright had a say on the verdict as well.
    pub with_rust: u64,
    answers: BTreeMap<(Kind, usize), u64>,
    refusals: BTreeMap<u8, u64>,
}

impl Tally {
    /// Counts an answer; of one that is wrong, no more than that.
    pub fn add(&mut self, batch: &Batch, call: &Call, answer: &Answer, differs: bool) {
        self.cases += 1;
        if differs {
            self.differ += 1;
            return;
        }
        let subject = &batch.subjects[call.subject];
        let which = match answer.result {
            0 => usize::from(answer.buffer[0]),
            10 => 5,
            _ => 6,
        };
        *self.answers.entry((subject.kind, which)).or_default() += 1;
        if answer.result == 0 {
            let search = &subject.rust.searches[call.model as usize];
            let searched = *search != Search::NotTried;
            self.with_rust += u64::from(call.covered && searched);
            *self.refusals.entry(answer.buffer[1]).or_default() += 1;
        }
    }

    /// How many answers with this refusal's number there were.
    pub fn refusals(&self, number: u8) -> u64 {
        self.refusals.get(&number).copied().unwrap_or(0)
    }

    fn count(&self, kind: Kind, which: usize) -> u64 {
        self.answers.get(&(kind, which)).copied().unwrap_or(0)
    }
}

impl fmt::Display for Tally {
    fn fmt(&self, f: &mut fmt::Formatter) -> fmt::Result {
        write!(f, "{:13}", "kind of file")?;
        for answer in ANSWERS {
            write!(f, "{answer:>10}")?;
        }
        writeln!(f)?;
        for kind in Kind::ALL {
            write!(f, "{:13}", format!("{kind:?}"))?;
            for which in 0..ANSWERS.len() {
                write!(f, "{:10}", self.count(kind, which))?;
            }
            writeln!(f)?;
        }
        let refusals = self.refusals.iter().filter(|(number, _)| **number != 0);
        let refusals: Vec<String> = refusals
            .map(|(number, count)| format!("{count} of {number}"))
            .collect();
        writeln!(f, "refusals: {}", refusals.join(", "))?;
        writeln!(f, "verdict held to stateright's too: {}", self.with_rust)?;
        write!(f, "{} cases, {} differ", self.cases, self.differ)
    }
}
