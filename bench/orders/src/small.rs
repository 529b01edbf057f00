//! What is proposed for a small history. The answers are those of its legal orders.

use crate::damage;
use crate::every::Legal;
use crate::history::History;
use crate::legal::{Model, MODELS};
use crate::named;
use crate::place::{places, words, Place};
use crate::proposal::{Answered, Kind, Unanswered};
use crate::record::Record;

/// At most this many orders of a history are damaged, beside those found.
const DAMAGED: usize = 8;

/// `others` are orders that were found for other histories.
pub fn proposals(history: &History, record: &Record, others: &[&[Place]]) -> Vec<Answered> {
    let legal = Legal::of(history, record);
    let mut all = found(history, &legal);
    for (kind, words) in unanswered(history, record, &legal, others) {
        let answers = MODELS.map(|model| Some(legal.has(model, &words)));
        all.push((kind, words, answers));
    }
    all
}

/// The orders that the Rust found, for the model that they were found for and for the other.
fn found(history: &History, legal: &Legal) -> Vec<Answered> {
    let mut all = Vec::new();
    for order in history.found() {
        let words = words(order);
        for (kind, own) in [(Kind::Found, true), (Kind::FoundForTheOther, false)] {
            let answers = MODELS.map(|model| {
                let is_own = history.order(model) == Some(order);
                (is_own == own).then(|| legal.has(model, &words))
            });
            if answers != [None; 2] {
                all.push((kind, words.clone(), answers));
            }
        }
    }
    all
}

/// All else that is proposed.
fn unanswered(
    history: &History,
    record: &Record,
    legal: &Legal,
    others: &[&[Place]],
) -> Vec<Unanswered> {
    let mut all = vec![(Kind::Empty, Vec::new())];
    for order in others {
        all.push((Kind::OfAnotherHistory, words(order)));
    }
    for order in record.completed_in_turn(history.family) {
        let given = named::given(history, record, &order);
        all.push((Kind::AsRecorded, words(&order)));
        all.push((Kind::AsGiven, words(&given)));
    }
    for order in to_damage(history, legal) {
        all.extend(damage::every(history, record, &order));
    }
    for words in legal.orders(Model::Sequential) {
        all.push((Kind::AnyLegal, words.clone()));
    }
    all
}

/// The orders to damage, all legal for a model, so that the damage alone can make them illegal: those found, and some
/// others.
fn to_damage(history: &History, legal: &Legal) -> Vec<Vec<Place>> {
    let found = history.found().into_iter().map(<[Place]>::to_vec);
    let legal = legal.orders(Model::Sequential);
    let others = legal.iter().rev().step_by(1 + legal.len() / DAMAGED);
    found.chain(others.map(|words| places(words))).collect()
}
