//! The operations of an order, each with the return that it has there.

use crate::family::Family;
use crate::object::{Object, Return};
use crate::place::Place;
use crate::record::Recorded;

#[derive(Clone, Copy)]
pub struct Step<'a> {
    pub recorded: &'a Recorded,
    pub returned: Return,
}

/// The operations in this order, each with the return that is recorded, or else that the object gives there.
pub fn steps<'a>(start: &Object, operations: &[&'a Recorded]) -> Vec<Step<'a>> {
    let mut object = start.clone();
    let step = |recorded: &&'a Recorded| {
        let given = object.invoke(recorded.operation);
        let returned = recorded.returned.map_or(given, |(_, returned)| returned);
        Step { recorded, returned }
    };
    operations.iter().map(step).collect()
}

/// The order as it is proposed: thread numbers and returns.
pub fn proposed(family: Family, steps: &[Step]) -> Vec<Place> {
    let place = |step: &Step| Place::new(step.recorded.thread, family.words(step.returned));
    steps.iter().map(place).collect()
}
