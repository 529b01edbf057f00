//! How much of a file was judged.
//!
//! The exported call does not tell this, so the file is walked here once more. Nothing is judged by it: which events
//! there are follows from where each number ends.

use crate::Answer;

/// How many operations and events a capture holds, up to where it was read.
#[derive(Clone, Copy, Debug, Default, Eq, Hash, PartialEq)]
#[non_exhaustive]
pub struct Counts {
    /// Events: invocations and returns.
    pub events: usize,
    /// Operations that were invoked.
    pub operations: usize,
    /// Operations that returned; the others are in flight.
    pub completed: usize,
}

/// What follows the number of an operation or of a return.
#[derive(Clone, Copy)]
enum Carries {
    Nothing,
    /// A value or a length.
    Number,
    /// Flag 0, or flag 1 and a value.
    Maybe,
}

use Carries::{Maybe, Nothing, Number};

/// What the operations of each object carry, by the object's number and the operation's.
const OPERATIONS: [&[Carries]; 3] = [
    &[Number, Nothing],
    &[Number, Nothing],
    &[Number, Nothing, Nothing],
];

/// The same of returns.
const RETURNS: [&[Carries]; 3] = [
    &[Nothing, Number],
    &[Nothing, Nothing, Maybe],
    &[Nothing, Maybe, Number],
];

const WRITE_ONCE: usize = 1;
const STACK: usize = 2;
const OPENING: usize = 4;

/// Counts what a file holds that got this answer: all of it, or what stands before the event that was refused. `None`
/// if the answer isn't of this file.
pub fn count(file: &[u8], answer: &Answer) -> Option<Counts> {
    let end = match answer {
        Answer::Order { .. } | Answer::NoOrder { .. } | Answer::Undecided { .. } => file.len(),
        Answer::Invalid { place, .. } | Answer::Refused { place, .. } => *place as usize,
        Answer::Unknown(_) => return None,
    };
    match end {
        0 => Some(Counts::default()),
        _ => counted(file.get(..end)?),
    }
}

/// Counts what a file holds whose every event is whole.
fn counted(file: &[u8]) -> Option<Counts> {
    let mut rest = Rest(file.get(OPENING..)?);
    let object = rest.number()? as usize;
    rest.pass_start(object)?;
    let (operations, returns) = (OPERATIONS.get(object)?, RETURNS.get(object)?);
    let mut counts = Counts::default();
    while !rest.0.is_empty() {
        let is_return = rest.number()? % 2 == 1;
        let code = rest.number()? as usize;
        let codes = if is_return { returns } else { operations };
        rest.pass(*codes.get(code)?)?;
        counts.events += 1;
        counts.operations += usize::from(!is_return);
        counts.completed += usize::from(is_return);
    }
    Some(counts)
}

/// What is left of a file.
struct Rest<'a>(&'a [u8]);

impl Rest<'_> {
    /// The next number: seven bits to a byte, lowest group first.
    fn number(&mut self) -> Option<u64> {
        let mut number = 0;
        for place in 0..5 {
            let (byte, rest) = self.0.split_first()?;
            self.0 = rest;
            number |= u64::from(byte & 0x7f) << (7 * place);
            if byte & 0x80 == 0 {
                return Some(number);
            }
        }
        None
    }

    fn pass(&mut self, carries: Carries) -> Option<()> {
        match carries {
            Nothing => {}
            Number => drop(self.number()?),
            Maybe => {
                if self.number()? == 1 {
                    self.number()?;
                }
            }
        }
        Some(())
    }

    /// Passes over what an object holds at the start.
    fn pass_start(&mut self, object: usize) -> Option<()> {
        match object {
            WRITE_ONCE => self.pass(Maybe),
            STACK => (0..self.number()?).try_for_each(|_| self.pass(Number)),
            _ => self.pass(Number),
        }
    }
}
