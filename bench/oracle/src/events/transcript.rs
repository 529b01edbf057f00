//! Fresh testers fed event by event, and each event with its outcome written as a line of numbers.

use crate::family::Family;
use crate::line;
use crate::testers::{Testers, OPERATIONS, THREADS};
use capture::Random;

const START: i64 = 0;

#[derive(Clone, Copy, PartialEq)]
pub enum Kind {
    Invoke = 1,
    Return = 2,
    Invret = 3,
}

pub const KINDS: [Kind; 3] = [Kind::Invoke, Kind::Return, Kind::Invret];

pub struct Transcript<F: Family> {
    start: F,
    testers: Testers<F>,
    valid: bool,
    busy: [bool; THREADS as usize],
    text: String,
}

impl<F: Family> Transcript<F> {
    /// Begins with fresh testers of an object.
    pub fn starting(random: &mut Random) -> Self {
        let start = F::holding(&F::random_start(random));
        let mut line = vec![START, F::NUMBER];
        line.extend(line::counted(&start.held()));
        Transcript {
            testers: Testers::new(&start),
            start,
            valid: true,
            busy: [false; THREADS as usize],
            text: line::of(&line),
        }
    }

    /// Whether the thread has an operation in flight.
    pub fn is_busy(&self, thread: u32) -> bool {
        self.busy[thread as usize]
    }

    pub fn len(&self) -> usize {
        self.testers.len()
    }

    /// Whether this event would ask a full tester for one operation more.
    pub fn is_beyond(&self, kind: Kind, thread: u32) -> bool {
        let invokes = kind != Kind::Return;
        invokes && self.valid && !self.is_busy(thread) && self.len() == OPERATIONS
    }

    /// Feeds an event, its operation and its return any of the family.
    pub fn event(&mut self, kind: Kind, thread: u32, random: &mut Random) {
        assert!(!self.is_beyond(kind, thread), "the port's tester is full");
        let op = self.start.random_operation(random);
        let ret = self.start.random_return(random);
        let mut line = vec![kind as i64, thread.into()];
        if kind != Kind::Return {
            line.extend(F::operation_numbers(&op));
        }
        if kind != Kind::Invoke {
            line.extend(F::return_numbers(&ret));
        }
        let recorded = self.feed(kind, thread, op, ret);
        line.push(recorded.into());
        line.push(line::count(self.len()));
        self.text += &line::of(&line);
    }

    fn feed(&mut self, kind: Kind, thread: u32, op: F::Op, ret: F::Ret) -> bool {
        let recorded = match kind {
            Kind::Invoke => self.testers.on_invoke(thread, op),
            Kind::Return => self.testers.on_return(thread, ret),
            Kind::Invret => self.testers.on_invret(thread, op, ret),
        };
        if recorded {
            self.busy[thread as usize] = kind == Kind::Invoke;
        } else {
            self.valid = false;
        }
        recorded
    }

    /// What has been written.
    pub fn text(self) -> String {
        self.text
    }
}
