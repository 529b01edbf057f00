//! Recording: which operations a tester holds, and when each was invoked and returned.

use crate::sizes::{OPERATIONS, THREADS};
use capture::{Call, Event, Object, Op, Ret};

/// An operation that was recorded. A moment is the number of events recorded before it.
#[derive(Clone, Debug, PartialEq)]
pub struct Operation {
    pub thread: u8,
    pub op: Op,
    pub invoked: usize,
    /// When it returned and what; nothing while it is in flight.
    pub returned: Option<(usize, Ret)>,
}

/// A tester of either model: the events' moments are all that both need.
#[derive(Clone, Debug, PartialEq)]
pub struct Tester {
    pub start: Object,
    /// In the order of their invocations.
    pub operations: Vec<Operation>,
    pub valid: bool,
    /// How many events were recorded.
    now: usize,
}

impl Tester {
    pub fn new(start: Object) -> Self {
        Tester {
            start,
            operations: Vec::new(),
            valid: true,
            now: 0,
        }
    }

    /// Records an event: its number in document 01's table, 0 when it was recorded. "For an event the order
    /// is 9, 1, 2, 3, then 4 or 5, then 6"; no tester here is out of shape.
    pub fn on_event(&mut self, event: Event) -> u8 {
        if !self.valid {
            return 1;
        }
        if event.thread >= THREADS {
            return 2;
        }
        if !self.is_of_family(event.call) {
            return 3;
        }
        let thread = event.thread as u8;
        match (event.call, self.in_flight(thread)) {
            (Call::Invoke(_), Some(_)) => {
                self.valid = false;
                return 4;
            }
            (Call::Return(_), None) => {
                self.valid = false;
                return 5;
            }
            (Call::Invoke(_), None) if self.len() == OPERATIONS => return 6,
            (Call::Invoke(op), None) => self.operations.push(Operation {
                thread,
                op,
                invoked: self.now,
                returned: None,
            }),
            (Call::Return(ret), Some(at)) => self.operations[at].returned = Some((self.now, ret)),
        }
        self.now += 1;
        0
    }

    /// Operations held, completed and in flight.
    pub fn len(&self) -> usize {
        self.operations.len()
    }

    pub fn is_empty(&self) -> bool {
        self.operations.is_empty()
    }

    /// The index of the thread's operation in flight.
    fn in_flight(&self, thread: u8) -> Option<usize> {
        self.operations
            .iter()
            .position(|operation| operation.thread == thread && operation.returned.is_none())
    }

    fn is_of_family(&self, call: Call) -> bool {
        matches!(
            (&self.start, call),
            (
                Object::Register(_),
                Call::Invoke(Op::Register(_)) | Call::Return(Ret::Register(_))
            ) | (
                Object::WriteOnce(_),
                Call::Invoke(Op::WriteOnce(_)) | Call::Return(Ret::WriteOnce(_))
            ) | (
                Object::Stack(_),
                Call::Invoke(Op::Stack(_)) | Call::Return(Ret::Stack(_))
            )
        )
    }
}
