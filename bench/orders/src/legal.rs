//! The definition of a legal order, one function to a sentence of it.

use crate::object::Object;
use crate::record::Recorded;
use crate::step::Step;

#[derive(Clone, Copy, Debug, Eq, Ord, PartialEq, PartialOrd)]
pub enum Model {
    Sequential,
    Linearizable,
}

/// By their numbers.
pub const MODELS: [Model; 2] = [Model::Sequential, Model::Linearizable];

/// Whether the order is legal for a valid history of these operations that starts with this object.
pub fn is_legal(model: Model, start: &Object, operations: &[Recorded], order: &[Step]) -> bool {
    holds_every_completed_operation(operations, order)
        && holds_in_flight_ones(start, operations, order)
        && keeps_each_threads_order(order)
        && is_right_at_every_step(start, order)
        && (model == Model::Sequential || keeps_real_time(order))
        && ends_with_a_completed_operation(order)
}

/// A legal order holds every completed operation once with its recorded return, …
fn holds_every_completed_operation(operations: &[Recorded], order: &[Step]) -> bool {
    operations.iter().all(|recorded| match recorded.returned {
        None => true,
        Some((_, returned)) => match places(recorded, order)[..] {
            [at] => order[at].returned == returned,
            _ => false,
        },
    })
}

/// … and any of the in-flight ones, each with the return that the object gives there.
fn holds_in_flight_ones(start: &Object, operations: &[Recorded], order: &[Step]) -> bool {
    let mut in_flight = operations.iter().filter(|recorded| recorded.is_in_flight());
    in_flight.all(|recorded| match places(recorded, order)[..] {
        [] => true,
        [at] => order[at].returned == after(start, &order[..at]).invoke(recorded.operation),
        _ => false,
    })
}

/// Each thread's operations stand in its own order, its in-flight one last.
fn keeps_each_threads_order(order: &[Step]) -> bool {
    let mut pairs = pairs(order).filter(|(before, after)| before.thread == after.thread);
    pairs.all(|(before, after)| before.invoked < after.invoked && !before.is_in_flight())
}

/// From the initial object every step is right.
fn is_right_at_every_step(start: &Object, order: &[Step]) -> bool {
    let mut object = start.clone();
    let is_right = |step: &Step| object.invoke(step.recorded.operation) == step.returned;
    order.iter().all(is_right)
}

/// For linearizability, an operation that returned before another was invoked stands before it: none stands after it.
pub fn keeps_real_time(order: &[Step]) -> bool {
    pairs(order).all(|(before, after)| match after.returned {
        Some((returned, _)) => before.invoked < returned,
        None => true,
    })
}

/// An order is empty or ends with a completed operation.
fn ends_with_a_completed_operation(order: &[Step]) -> bool {
    match order.last() {
        Some(step) => !step.recorded.is_in_flight(),
        None => true,
    }
}

/// Where the operation stands in the order.
fn places(recorded: &Recorded, order: &[Step]) -> Vec<usize> {
    let stands = |at: &usize| std::ptr::eq(order[*at].recorded, recorded);
    (0..order.len()).filter(stands).collect()
}

/// The operation of each place with that of each later one.
fn pairs<'a>(order: &'a [Step]) -> impl Iterator<Item = (&'a Recorded, &'a Recorded)> {
    (0..order.len()).flat_map(move |at| {
        let before = order[at].recorded;
        order[at + 1..]
            .iter()
            .map(move |after| (before, after.recorded))
    })
}

/// The object after these steps.
fn after(start: &Object, steps: &[Step]) -> Object {
    let mut object = start.clone();
    for step in steps {
        object.invoke(step.recorded.operation);
    }
    object
}
