//! The histories of the list, each with its two verdicts.

use std::collections::BTreeSet;

#[derive(Clone, Copy, Debug, Eq, Ord, PartialEq, PartialOrd)]
pub enum Verdict {
    NoOrder,
    Order,
    Invalid,
}

pub struct Judged {
    pub verdict: Verdict,
    pub attempts: i64,
    /// The threads and returns of the order, if there is one.
    pub places: Vec<Vec<i64>>,
}

pub struct History {
    pub family: i64,
    /// How many values the object holds at first.
    pub held: i64,
    pub invoked: usize,
    pub returned: usize,
    pub threads: BTreeSet<i64>,
    /// By the sequential model and by the linearizable one.
    pub judged: Vec<Judged>,
}

impl History {
    fn new(start: &[i64]) -> Self {
        History {
            family: start[1],
            held: start[2],
            invoked: 0,
            returned: 0,
            threads: BTreeSet::new(),
            judged: Vec::new(),
        }
    }

    fn line(&mut self, line: &[i64]) {
        match line[0] {
            1 => self.invoked += 1,
            2 => self.returned += 1,
            3 => {
                assert_eq!(line[1], self.judged.len() as i64, "the models in turn");
                self.judged.push(judged(line));
                return;
            }
            _ => panic!("a kind of line"),
        }
        self.threads.insert(line[1]);
    }

    pub fn is(&self, verdict: Verdict) -> bool {
        self.judged.iter().all(|judged| judged.verdict == verdict)
    }

    /// In a valid history.
    pub fn in_flight(&self) -> usize {
        self.invoked - self.returned
    }
}

fn judged(line: &[i64]) -> Judged {
    let verdict = match line[3] {
        0 => Verdict::NoOrder,
        1 => Verdict::Order,
        2 => Verdict::Invalid,
        _ => panic!("a kind of verdict"),
    };
    let places: Vec<Vec<i64>> = match verdict {
        Verdict::Order => line[5..].chunks(6).map(<[i64]>::to_vec).collect(),
        _ => Vec::new(),
    };
    let length = match verdict {
        Verdict::Order => 5 + 6 * line[4] as usize,
        _ => 4,
    };
    assert_eq!(line.len(), length);
    Judged {
        verdict,
        attempts: line[2],
        places,
    }
}

pub fn histories(lines: Vec<Vec<i64>>) -> Vec<History> {
    let mut histories: Vec<History> = Vec::new();
    for line in lines {
        if line[0] == 0 {
            histories.push(History::new(&line));
        } else {
            histories.last_mut().expect("a history").line(&line);
        }
    }
    assert!(histories.iter().all(|history| history.judged.len() == 2));
    histories
}
