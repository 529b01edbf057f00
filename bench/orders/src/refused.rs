//! What is proposed for an invalid history. No order is legal for it, not even one that was before an event was refused.

use crate::every::{Legal, SMALL};
use crate::history::History;
use crate::legal::Model;
use crate::place::words;
use crate::proposal::{Answered, Kind, NO};
use crate::record::Record;

pub fn proposals(history: &History, record: &Record) -> Vec<Answered> {
    let mut all = vec![(Kind::EmptyToInvalid, Vec::new())];
    if record.operations.len() <= SMALL {
        let legal = Legal::of(history, record);
        let before = legal.orders(Model::Sequential).iter();
        all.extend(before.map(|words| (Kind::LegalToInvalid, words.clone())));
    }
    for order in record.completed_in_turn(history.family) {
        all.push((Kind::AsRecordedToInvalid, words(&order)));
    }
    all.into_iter()
        .map(|(kind, words)| (kind, words, NO))
        .collect()
}
