//! What can be done to an order.

mod lengths;
mod pending;
mod places;
mod returns;
mod threads;

use crate::history::History;
use crate::place::{words, Place};
use crate::proposal::Unanswered;
use crate::record::Record;

pub use lengths::{half_places, longer};
pub use places::without;
pub use returns::NoReturn;

/// Every damage to an order of a small history.
pub fn every(history: &History, record: &Record, order: &[Place]) -> Vec<Unanswered> {
    let mut all = [
        places::moved(history, record, order),
        pending::put_in(history, record, order),
        returns::changed(history.family, record, order),
        longer(order),
        half_places(order),
    ]
    .concat();
    for at in 0..=order.len() {
        all.extend(out_of_range(history, order, at));
    }
    all
}

/// Threads and returns that there are not, at a place or before it.
pub fn out_of_range(history: &History, order: &[Place], at: usize) -> Vec<Unanswered> {
    let put_in = threads::put_in().map(|(kind, place)| (kind, with(order, at, place)));
    let replaced = order.get(at).into_iter().flat_map(|place| {
        let threads = threads::above(*place);
        let returns = returns::none(history.family, *place);
        threads.into_iter().chain(returns)
    });
    let replaced = replaced.map(|(kind, place)| (kind, instead(order, at, place)));
    put_in.into_iter().chain(replaced).collect()
}

/// The order with one more place before this one, or at the end.
fn with(order: &[Place], at: usize, place: Place) -> Vec<u32> {
    words(&[&order[..at], &[place], &order[at..]].concat())
}

/// The order with another place instead of this one.
fn instead(order: &[Place], at: usize, place: Place) -> Vec<u32> {
    words(&[&order[..at], &[place], &order[at + 1..]].concat())
}
