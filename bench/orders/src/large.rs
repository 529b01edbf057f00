//! What is proposed for a history that is not small: the orders that the Rust found, and others whose answer has a
//! plain reason.

use crate::damage;
use crate::history::History;
use crate::legal::{keeps_real_time, Model, MODELS};
use crate::named;
use crate::place::{words, Place};
use crate::proposal::{Answered, Answers, Kind, Unanswered, NO};
use crate::record::Record;

/// The operations of a full tester.
const FULL: usize = 64;

/// `turn` says which place of an order is damaged.
pub fn proposals(history: &History, record: &Record, turn: usize) -> Vec<Answered> {
    let mut all = as_given(history, record);
    for order in history.found() {
        let finder = |model| history.order(model) == Some(order);
        let own = MODELS.map(|model| finder(model).then_some(true));
        all.push((Kind::Found, words(order), own));
        if own != [Some(true); 2] {
            let other = for_the_other(history, record, order);
            all.push((Kind::FoundForTheOther, words(order), other));
        }
        let damaged = damaged(history, record, order, turn).into_iter();
        all.extend(damaged.map(|(kind, words)| (kind, words, NO)));
    }
    all
}

/// Completed operations with what the object gives, where that is not what they returned.
fn as_given(history: &History, record: &Record) -> Vec<Answered> {
    let [order, _] = record.completed_in_turn(history.family);
    let given = named::given(history, record, &order);
    let differs = given != order;
    let proposal = (Kind::AsGiven, words(&given), NO);
    differs.then_some(proposal).into_iter().collect()
}

/// An order found for linearizability alone is legal for sequential consistency too, which asks less. One found for
/// that alone is not legal for linearizability where it goes against real time.
fn for_the_other(history: &History, record: &Record, order: &[Place]) -> Answers {
    if history.order(Model::Linearizable) == Some(order) {
        return [Some(true), None];
    }
    let steps = named::steps(history, record, order).expect("the steps of an order");
    [None, (!keeps_real_time(&steps)).then_some(false)]
}

/// Damages after which an order is legal for no model: no such length, no such thread, no such return, a completed
/// operation missing.
fn damaged(history: &History, record: &Record, order: &[Place], turn: usize) -> Vec<Unanswered> {
    let mut all = damage::half_places(order);
    all.extend(damage::out_of_range(
        history,
        order,
        turn % (order.len() + 1),
    ));
    if order.len() == FULL {
        all.extend(damage::longer(order));
    }
    let needed = needed(record, order);
    if !needed.is_empty() {
        let at = needed[turn % needed.len()];
        all.push((Kind::Dropped, damage::without(order, at)));
    }
    all
}

/// The places without which their thread has fewer than it has completed operations.
fn needed(record: &Record, order: &[Place]) -> Vec<usize> {
    let is_needed = |at: &usize| {
        let thread = order[*at].thread;
        let places = order.iter().filter(|place| place.thread == thread);
        let completed = record
            .of_thread(thread)
            .filter(|recorded| !recorded.is_in_flight());
        places.count() == completed.count()
    };
    (0..order.len()).filter(is_needed).collect()
}
