//! What events record: the operations in the order of their invocations.

use crate::family::Family;
use crate::history::Event;
use crate::object::{Operation, Return};
use crate::place::Place;

pub struct Recorded {
    pub thread: u32,
    pub operation: Operation,
    /// The place of its invocation among the events.
    pub invoked: usize,
    /// The place of its return among the events and what it returned; none while it is in flight.
    pub returned: Option<(usize, Return)>,
}

impl Recorded {
    pub fn is_in_flight(&self) -> bool {
        self.returned.is_none()
    }
}

pub struct Record {
    pub operations: Vec<Recorded>,
    /// Whether no event was refused.
    pub valid: bool,
}

impl Record {
    /// The events up to the first that is refused: an invocation by a thread that has an operation in flight, or a
    /// return by one that has none.
    pub fn of(events: &[Event]) -> Self {
        let mut operations: Vec<Recorded> = Vec::new();
        for (at, event) in events.iter().enumerate() {
            let (Event::Invoke(thread, _) | Event::Return(thread, _)) = *event;
            let in_flight = operations
                .iter_mut()
                .find(|recorded| recorded.thread == thread && recorded.is_in_flight());
            match (event, in_flight) {
                (Event::Invoke(_, operation), None) => operations.push(Recorded {
                    thread,
                    operation: *operation,
                    invoked: at,
                    returned: None,
                }),
                (Event::Return(_, answer), Some(recorded)) => {
                    recorded.returned = Some((at, *answer));
                }
                _ => {
                    return Record {
                        operations,
                        valid: false,
                    }
                }
            }
        }
        Record {
            operations,
            valid: true,
        }
    }

    /// The completed operations in the order of their returns, and in that of their invocations.
    pub fn completed_in_turn(&self, family: Family) -> [Vec<Place>; 2] {
        let mut completed: Vec<(usize, Place)> = Vec::new();
        for recorded in &self.operations {
            if let Some((at, returned)) = recorded.returned {
                completed.push((at, Place::new(recorded.thread, family.words(returned))));
            }
        }
        let places =
            |completed: &[(usize, Place)]| completed.iter().map(|(_, place)| *place).collect();
        let invoked = places(&completed);
        completed.sort_by_key(|(at, _)| *at);
        [places(&completed), invoked]
    }

    /// The thread's operations, in its own order.
    pub fn of_thread(&self, thread: u32) -> impl Iterator<Item = &Recorded> {
        self.operations
            .iter()
            .filter(move |recorded| recorded.thread == thread)
    }
}
