//! How much the operations of histories overlap.

use crate::family::Family;
use crate::histories::{Event, History};

/// An operation: its thread, and the places of its invoke and its return in the history.
struct Operation {
    thread: u32,
    begun: usize,
    ended: usize,
}

impl Operation {
    fn overlaps(&self, other: &Self) -> bool {
        self.thread != other.thread && self.begun < other.ended && other.begun < self.ended
    }
}

/// The share of all operations that overlap in time with one of another thread at least, in percent.
pub fn percent<F: Family>(histories: &[History<F>]) -> f64 {
    let (mut overlapping, mut all) = (0, 0);
    for history in histories {
        let operations = operations(history);
        let meets = |one: &&Operation| operations.iter().any(|other| one.overlaps(other));
        overlapping += operations.iter().filter(meets).count();
        all += operations.len();
    }
    100.0 * overlapping as f64 / all as f64
}

fn operations<F: Family>(history: &History<F>) -> Vec<Operation> {
    let mut operations: Vec<Operation> = Vec::new();
    for (place, event) in history.0.iter().enumerate() {
        match event {
            Event::Invoke(thread, _) => operations.push(Operation {
                thread: *thread,
                begun: place,
                ended: usize::MAX,
            }),
            Event::Return(thread, _) => {
                let mut latest = operations.iter_mut().rev();
                let returned = latest.find(|operation| operation.thread == *thread);
                returned.expect("an operation in flight").ended = place;
            }
        }
    }
    operations
}
