//! Places moved, left out or repeated.

use super::with;
use crate::history::History;
use crate::named;
use crate::place::{words, Place};
use crate::proposal::{Kind, Unanswered};
use crate::record::Record;

pub fn moved(history: &History, record: &Record, order: &[Place]) -> Vec<Unanswered> {
    let mut all = Vec::new();
    for at in 0..order.len() {
        all.push((Kind::Dropped, without(order, at)));
        for later in at + 1..order.len() {
            let mut swapped = order.to_vec();
            swapped.swap(at, later);
            all.push((Kind::Swapped, words(&swapped)));
            let given = named::given(history, record, &swapped);
            all.push((Kind::AsGiven, words(&given)));
        }
        for again in at + 1..=order.len() {
            all.push((Kind::Doubled, with(order, again, order[at])));
        }
    }
    all
}

/// The order without this place.
pub fn without(order: &[Place], at: usize) -> Vec<u32> {
    words(&[&order[..at], &order[at + 1..]].concat())
}
