//! The operations that a proposed order speaks of: a thread's places are its operations in turn.

use crate::history::History;
use crate::object::Object;
use crate::place::Place;
use crate::record::{Record, Recorded};
use crate::step::{self, Step};

/// The operation of each place; none where its thread has no more.
pub fn operations<'a>(record: &'a Record, order: &[Place]) -> Vec<Option<&'a Recorded>> {
    let operation = |at: usize| {
        let thread = order[at].thread;
        let before = order[..at].iter().filter(|place| place.thread == thread);
        record.of_thread(thread).nth(before.count())
    };
    (0..order.len()).map(operation).collect()
}

/// The order's steps, if each place has an operation, and the words of the return that it recorded or that the object
/// gives there.
pub fn steps<'a>(history: &History, record: &'a Record, order: &[Place]) -> Option<Vec<Step<'a>>> {
    let operations: Option<Vec<&Recorded>> = operations(record, order).into_iter().collect();
    let steps = step::steps(&history.start, &operations?);
    (step::proposed(history.family, &steps) == order).then_some(steps)
}

/// The object after the order's operations.
pub fn object_after(history: &History, record: &Record, order: &[Place]) -> Object {
    let mut object = history.start.clone();
    for recorded in operations(record, order).into_iter().flatten() {
        object.invoke(recorded.operation);
    }
    object
}

/// The order's operations with the returns that the object gives, whatever was recorded.
pub fn given(history: &History, record: &Record, order: &[Place]) -> Vec<Place> {
    let mut object = history.start.clone();
    let place = |recorded: &Recorded| {
        let returned = object.invoke(recorded.operation);
        Place::new(recorded.thread, history.family.words(returned))
    };
    let operations = operations(record, order).into_iter().flatten();
    operations.map(place).collect()
}
