//! How many files came to what, and the exit status that follows from it.

use crate::outcome::{Judged, Kept, Outcome, Skipped, Verdict};
use kilteshva::Model;
use std::collections::{BTreeMap, HashSet};

/// Exit status: every capture is green.
pub const GREEN: u8 = 0;
/// Exit status: some capture is No order, Invalid or Refused.
pub const RED: u8 = 1;
/// Exit status: something kept captures from being judged.
pub const TROUBLE: u8 = 2;
/// Exit status: no capture is red, but some are Undecided.
pub const UNDECIDED: u8 = 3;

/// What a file means for the exit status, the worst last.
#[derive(Clone, Copy, Debug, Eq, Ord, PartialEq, PartialOrd)]
enum Class {
    Green,
    Undecided,
    Red,
    Trouble,
}

/// What is asked of a run as a whole.
#[derive(Clone, Copy, Default)]
pub struct Demands {
    pub expected: Option<usize>,
    pub no_skips: bool,
    pub allow_empty: bool,
}

#[derive(Default)]
pub struct Tally {
    demands: Demands,
    /// Whether the run ended before all was judged.
    pub interrupted: bool,
    /// Of each file, what it comes to.
    classes: BTreeMap<usize, Class>,
    verdicts: BTreeMap<(Model, Verdict), usize>,
    kept: BTreeMap<Kept, usize>,
    /// Files and folders skipped by name, and files of the run's own.
    pub skipped: usize,
    skipped_by_name: usize,
    /// Operations and events of the captures judged: those that are Order, No order or Undecided.
    pub operations: usize,
    pub events: usize,
    /// The files judged, by device and inode: one with two names counts once.
    captures: HashSet<(u64, u64)>,
    /// Times that standard input was judged.
    inputs: usize,
}

impl Tally {
    pub fn new(demands: Demands) -> Self {
        Tally {
            demands,
            ..Tally::default()
        }
    }

    /// Adds what came of a file, by its number.
    pub fn add(&mut self, at: usize, outcome: &Outcome) {
        match outcome {
            Outcome::Judged(judged) => self.add_judged(at, judged),
            Outcome::Kept(kept, _) => self.add_kept(at, *kept),
            Outcome::Skipped(_, skipped) => {
                self.skipped += 1;
                self.skipped_by_name += usize::from(*skipped == Skipped::ByName);
            }
        }
    }

    fn add_judged(&mut self, at: usize, judged: &Judged) {
        let mut class = Class::Green;
        let mut was_read_whole = false;
        for (model, answer, _) in &judged.answers {
            let verdict = judged.verdict(answer, self.demands.allow_empty);
            *self.verdicts.entry((*model, verdict)).or_default() += 1;
            class = class.max(match verdict {
                Verdict::Order => Class::Green,
                Verdict::Undecided => Class::Undecided,
                Verdict::NoOrder | Verdict::Invalid | Verdict::Refused => Class::Red,
                Verdict::Empty | Verdict::Unknown => Class::Trouble,
            });
            was_read_whole = !matches!(verdict, Verdict::Invalid | Verdict::Refused);
        }
        self.classes.insert(at, class);
        if let Some(counts) = judged.counts.filter(|_| was_read_whole) {
            self.operations += counts.operations;
            self.events += counts.events;
        }
        match judged.stamp {
            Some(stamp) => drop(self.captures.insert(stamp.identity())),
            None => self.inputs += 1,
        }
    }

    /// A file was kept from being judged, or is no longer what was judged.
    pub fn add_kept(&mut self, at: usize, kept: Kept) {
        self.classes.insert(at, Class::Trouble);
        *self.kept.entry(kept).or_default() += 1;
    }

    /// How many files have this verdict.
    pub fn count(&self, model: Model, verdict: Verdict) -> usize {
        self.verdicts.get(&(model, verdict)).copied().unwrap_or(0)
    }

    /// How many files were kept from being judged, for this reason.
    pub fn kept(&self, kept: Kept) -> usize {
        self.kept.get(&kept).copied().unwrap_or(0)
    }

    /// Files told of, all but those skipped.
    pub fn files(&self) -> usize {
        self.classes.len()
    }

    /// Files that are not Order for every model asked for.
    pub fn not_green(&self) -> usize {
        let is_green = |class: &&Class| **class == Class::Green;
        self.files() - self.classes.values().filter(is_green).count()
    }

    /// How many captures were judged.
    pub fn captures(&self) -> usize {
        self.captures.len() + self.inputs
    }

    /// How many there should have been, if there were more or fewer.
    pub fn missed(&self) -> Option<usize> {
        let expected = self.demands.expected;
        expected.filter(|expected| *expected != self.captures())
    }

    /// The exit status of the command.
    pub fn status(&self) -> u8 {
        let skips = self.demands.no_skips && self.skipped_by_name > 0;
        if self.interrupted || skips || self.missed().is_some() {
            return TROUBLE;
        }
        match self.classes.values().max() {
            Some(Class::Green) => GREEN,
            Some(Class::Undecided) => UNDECIDED,
            Some(Class::Red) => RED,
            Some(Class::Trouble) | None => TROUBLE,
        }
    }

    pub fn is_green(&self) -> bool {
        self.status() == GREEN
    }
}

#[cfg(test)]
mod tests {
    use super::*;
    use kilteshva::{count, judge, Answer, Refusal, Unknown};
    use std::time::Duration;

    /// A capture of one completed Read, and one of none.
    const READ: &[u8] = b"RAW1\x00\x00\x00\x01\x01\x01\x00";
    const NOTHING: &[u8] = b"RAW1\x00\x00";

    fn judged(file: &[u8], answer: Answer) -> Outcome {
        let order = judge(file, Model::Linearizable, u64::MAX);
        Outcome::Judged(Judged {
            answers: vec![(Model::Linearizable, answer, Duration::ZERO)],
            counts: count(file, &order),
            size: file.len() as u64,
            digest: None,
            stamp: None,
        })
    }

    fn order(threads: &[u8]) -> Outcome {
        let file = if threads.is_empty() { NOTHING } else { READ };
        let threads = threads.to_vec();
        judged(
            file,
            Answer::Order {
                threads,
                attempts: 1,
            },
        )
    }

    fn not_order(answer: Answer) -> Outcome {
        judged(READ, answer)
    }

    fn tally(demands: Demands, outcomes: &[Outcome]) -> Tally {
        let mut tally = Tally::new(demands);
        for (at, outcome) in outcomes.iter().enumerate() {
            tally.add(at, outcome);
        }
        tally
    }

    fn status(outcomes: &[Outcome]) -> u8 {
        tally(Demands::default(), outcomes).status()
    }

    fn kept(kept: Kept) -> Outcome {
        Outcome::Kept(kept, "why".to_string())
    }

    fn reds() -> [Answer; 3] {
        let (refusal, place) = (Refusal::CutOff, 9);
        [
            Answer::NoOrder { attempts: 1 },
            Answer::Invalid { refusal, place },
            Answer::Refused { refusal, place },
        ]
    }

    #[test]
    fn green_needs_an_order_for_every_file_and_at_least_one() {
        assert_eq!(status(&[]), TROUBLE);
        assert_eq!(status(&[order(&[0])]), GREEN);
        assert_eq!(status(&[order(&[0]), order(&[0])]), GREEN);
    }

    #[test]
    fn red_outweighs_undecided_and_trouble_outweighs_both() {
        let undecided = || not_order(Answer::Undecided { attempts: 1 });
        assert_eq!(status(&[order(&[0]), undecided()]), UNDECIDED);
        for red in reds() {
            assert_eq!(status(&[order(&[0]), not_order(red.clone())]), RED);
            assert_eq!(
                status(&[undecided(), not_order(red.clone()), undecided()]),
                RED
            );
            for reason in Kept::ALL {
                assert_eq!(status(&[kept(reason), not_order(red.clone())]), TROUBLE);
            }
        }
        for reason in Kept::ALL {
            assert_eq!(status(&[order(&[0]), kept(reason)]), TROUBLE);
            assert_eq!(status(&[kept(reason), undecided()]), TROUBLE);
        }
        let bytes = [0; 79];
        let unknown = Answer::Unknown(Unknown { result: 0, bytes });
        assert_eq!(status(&[order(&[0]), not_order(unknown)]), TROUBLE);
    }

    #[test]
    fn an_order_of_nothing_is_green_only_where_that_is_asked_for() {
        assert_eq!(status(&[order(&[0]), order(&[])]), TROUBLE);
        let allow_empty = true;
        let demands = Demands {
            allow_empty,
            ..Demands::default()
        };
        assert_eq!(tally(demands, &[order(&[])]).status(), GREEN);
    }

    #[test]
    fn an_order_that_does_not_fit_its_capture_is_unknown() {
        let threads = |threads: &[u8]| Answer::Order {
            threads: threads.to_vec(),
            attempts: 1,
        };
        let allow_empty = true;
        let demands = Demands {
            allow_empty,
            ..Demands::default()
        };
        for outcome in [judged(READ, threads(&[])), judged(NOTHING, threads(&[0]))] {
            let tally = tally(demands, &[outcome]);
            assert_eq!(tally.count(Model::Linearizable, Verdict::Unknown), 1);
            assert_eq!(tally.status(), TROUBLE);
        }
    }

    #[test]
    fn skips_are_an_error_only_where_that_is_asked_for() {
        let skipped = |skipped| Outcome::Skipped("hidden".to_string(), skipped);
        let no_skips = true;
        let demands = Demands {
            no_skips,
            ..Demands::default()
        };
        let by_name = [order(&[0]), skipped(Skipped::ByName)];
        let own = [order(&[0]), skipped(Skipped::Own)];
        assert_eq!((status(&by_name), status(&own)), (GREEN, GREEN));
        assert_eq!(tally(demands, &by_name).status(), TROUBLE);
        assert_eq!(tally(demands, &own).status(), GREEN);
        assert_eq!(status(&[skipped(Skipped::ByName)]), TROUBLE);
    }

    #[test]
    fn as_many_captures_as_expected() {
        for (expected, due) in [(1, TROUBLE), (2, GREEN), (3, TROUBLE)] {
            let expected = Some(expected);
            let demands = Demands {
                expected,
                ..Demands::default()
            };
            let tally = tally(demands, &[order(&[0]), order(&[0])]);
            assert_eq!(tally.status(), due);
            assert_eq!(tally.missed(), expected.filter(|_| due == TROUBLE));
        }
    }

    #[test]
    fn an_interrupted_run_is_not_green() {
        let mut tally = tally(Demands::default(), &[order(&[0])]);
        tally.interrupted = true;
        assert_eq!(tally.status(), TROUBLE);
    }

    #[test]
    fn a_file_that_changed_since_is_not_green() {
        let mut tally = tally(Demands::default(), &[order(&[0]), order(&[0])]);
        tally.add_kept(1, Kept::Changed);
        assert_eq!((tally.files(), tally.not_green()), (2, 1));
        assert_eq!(tally.status(), TROUBLE);
    }

    #[test]
    fn one_red_model_makes_a_file_red() {
        let threads = vec![0];
        let order = Answer::Order {
            threads,
            attempts: 4,
        };
        let no_order = Answer::NoOrder { attempts: 3 };
        for answers in [[no_order.clone(), order.clone()], [order, no_order]] {
            let Outcome::Judged(mut both) = not_order(answers[0].clone()) else {
                panic!("not judged");
            };
            both.answers = Model::ALL
                .into_iter()
                .zip(answers)
                .map(|(m, a)| (m, a, Duration::ZERO))
                .collect();
            let tally = tally(Demands::default(), &[Outcome::Judged(both)]);
            assert_eq!(
                (tally.files(), tally.not_green(), tally.status()),
                (1, 1, RED)
            );
            assert_eq!((tally.operations, tally.events), (1, 2));
        }
    }
}
