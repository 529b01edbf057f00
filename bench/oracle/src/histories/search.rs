//! The search for the first order, written from its definition and not from the Rust, to count its attempts.
//!
//! At each point where some completed operation is not placed it tries the threads upwards. An attempt is a
//! thread looked at that still has an operation to place, counted whether it is placed or turned away.

use super::history::{History, Operation};
use crate::family::Family;
use crate::testers::{Model, THREADS};

pub struct Searched<F: Family> {
    pub attempts: u64,
    pub verdict: Verdict<F>,
}

pub enum Verdict<F: Family> {
    Invalid,
    NoOrder,
    Order(Vec<Place<F>>),
}

/// An operation in an order, with the return that the object gives there.
pub struct Place<F: Family> {
    pub thread: usize,
    pub op: F::Op,
    pub ret: F::Ret,
}

/// The search takes more attempts than it may.
#[derive(Debug)]
pub struct Longer;

/// Searches to the end, unless that takes more attempts than `most`.
pub fn search<F: Family>(
    history: &History<F>,
    model: Model,
    most: u64,
) -> Result<Searched<F>, Longer> {
    let Some(operations) = history.operations() else {
        return Ok(Searched {
            attempts: 0,
            verdict: Verdict::Invalid,
        });
    };
    let mut search = Search {
        operations,
        model,
        placed: [0; THREADS as usize],
        order: Vec::new(),
        attempts: 0,
        most,
    };
    let found = search.found_from(&history.start)?;
    Ok(Searched {
        attempts: search.attempts,
        verdict: match found {
            false => Verdict::NoOrder,
            true => Verdict::Order(search.order),
        },
    })
}

struct Search<F: Family> {
    operations: [Vec<Operation<F>>; THREADS as usize],
    model: Model,
    /// How many operations of each thread are placed.
    placed: [usize; THREADS as usize],
    order: Vec<Place<F>>,
    attempts: u64,
    most: u64,
}

impl<F: Family> Search<F> {
    /// Whether the order so far, which leaves this object, can be completed: it then has been.
    fn found_from(&mut self, object: &F) -> Result<bool, Longer> {
        if self
            .to_place()
            .all(|operation| operation.returned.is_none())
        {
            return Ok(true);
        }
        for thread in 0..self.operations.len() {
            if self.next_of(thread).is_none() {
                continue;
            }
            if self.attempts == self.most {
                return Err(Longer);
            }
            self.attempts += 1;
            let mut object = object.clone();
            let Some(place) = self.right_step(thread, &mut object) else {
                continue;
            };
            self.placed[thread] += 1;
            self.order.push(place);
            if self.found_from(&object)? {
                return Ok(true);
            }
            self.order.pop();
            self.placed[thread] -= 1;
        }
        Ok(false)
    }

    fn next_of(&self, thread: usize) -> Option<&Operation<F>> {
        self.operations[thread].get(self.placed[thread])
    }

    /// The operations that are not placed.
    fn to_place(&self) -> impl Iterator<Item = &Operation<F>> {
        let threads = self.operations.iter().zip(self.placed);
        threads.flat_map(|(operations, placed)| &operations[placed..])
    }

    /// The thread's next operation on this object, unless it is turned away.
    fn right_step(&self, thread: usize, object: &mut F) -> Option<Place<F>> {
        let next = self.next_of(thread)?;
        if self.is_too_early(next) {
            return None;
        }
        let ret = object.invoke(&next.op);
        match &next.returned {
            Some((_, recorded)) if *recorded != ret => None,
            _ => Some(Place {
                thread,
                op: next.op.clone(),
                ret,
            }),
        }
    }

    /// Whether an operation that is not placed had returned before this one was invoked, in real time.
    fn is_too_early(&self, next: &Operation<F>) -> bool {
        let before_next = |operation: &Operation<F>| match operation.returned {
            Some((place, _)) => place < next.invoked,
            None => false,
        };
        match self.model {
            Model::Sequential => false,
            Model::Linearizable => self.to_place().any(before_next),
        }
    }
}
