//! The search for the first legal order, with its count of attempts.

use crate::object::invoke;
use crate::recording::{Operation, Tester};
use crate::sizes::THREADS;
use crate::Model;
use capture::Object;

#[derive(Clone, Debug, PartialEq)]
pub enum Verdict {
    /// The first order, as thread numbers.
    Order(Vec<u8>),
    NoOrder,
    Undecided,
    Invalid,
}

#[derive(Clone, Debug, PartialEq)]
pub struct Judged {
    pub verdict: Verdict,
    pub attempts: u64,
}

/// The verdict on what a tester holds, under a budget of attempts.
pub fn judge(tester: &Tester, model: Model, budget: u64) -> Judged {
    if !tester.valid {
        return Judged {
            verdict: Verdict::Invalid,
            attempts: 0,
        };
    }
    let mut search = Search {
        operations: &tester.operations,
        model,
        budget,
        attempts: 0,
        order: Vec::new(),
        placed: vec![false; tester.len()],
    };
    let verdict = match search.from(&tester.start) {
        End::Found => Verdict::Order(search.order),
        End::Exhausted => Verdict::NoOrder,
        End::BudgetSpent => Verdict::Undecided,
    };
    Judged {
        verdict,
        attempts: search.attempts,
    }
}

/// How the search from some point came to its end.
#[derive(PartialEq)]
enum End {
    Found,
    Exhausted,
    BudgetSpent,
}

struct Search<'a> {
    operations: &'a [Operation],
    model: Model,
    budget: u64,
    attempts: u64,
    /// The threads of the operations placed so far.
    order: Vec<u8>,
    /// Which operations are placed.
    placed: Vec<bool>,
}

impl Search<'_> {
    /// Goes on from what is placed, where the object holds this.
    fn from(&mut self, object: &Object) -> End {
        if self.all_completed_are_placed() {
            return End::Found;
        }
        for thread in 0..THREADS as u8 {
            let Some(next) = self.next_of(thread) else {
                continue;
            };
            if self.attempts == self.budget {
                return End::BudgetSpent;
            }
            self.attempts += 1;
            if !self.may_stand_here(next) {
                continue;
            }
            let (after, answer) = invoke(object, self.operations[next].op);
            // A pending operation takes whatever the object gives there.
            let recorded = self.operations[next].returned.map(|(_, ret)| ret);
            if recorded.is_some_and(|ret| ret != answer) {
                continue;
            }
            self.order.push(thread);
            self.placed[next] = true;
            let end = self.from(&after);
            if end != End::Exhausted {
                return end;
            }
            self.order.pop();
            self.placed[next] = false;
        }
        End::Exhausted
    }

    /// The thread's first operation that is not placed; its pending one is its last.
    fn next_of(&self, thread: u8) -> Option<usize> {
        (0..self.operations.len())
            .find(|at| self.operations[*at].thread == thread && !self.placed[*at])
    }

    fn all_completed_are_placed(&self) -> bool {
        (0..self.operations.len())
            .all(|at| self.operations[at].returned.is_none() || self.placed[at])
    }

    /// "For linearizability, an operation that returned before another was invoked stands before it."
    fn may_stand_here(&self, next: usize) -> bool {
        let invoked = self.operations[next].invoked;
        let returned_before = |at: usize| match self.operations[at].returned {
            Some((returned, _)) => returned < invoked,
            None => false,
        };
        self.model == Model::Sequential
            || (0..self.operations.len()).all(|at| self.placed[at] || !returned_before(at))
    }
}
