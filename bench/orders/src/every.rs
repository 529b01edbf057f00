//! Every legal order of a small history.

use crate::history::History;
use crate::legal::{is_legal, Model, MODELS};
use crate::place::words;
use crate::record::{Record, Recorded};
use crate::step;
use std::collections::BTreeSet;

/// A history of at most this many operations is small: it has at most 1,957 arrangements.
pub const SMALL: usize = 6;

/// The legal orders of a history, as words, by model.
pub struct Legal([BTreeSet<Vec<u32>>; 2]);

impl Legal {
    pub fn of(history: &History, record: &Record) -> Self {
        Legal(MODELS.map(|model| orders(model, history, &record.operations)))
    }

    pub fn orders(&self, model: Model) -> &BTreeSet<Vec<u32>> {
        &self.0[model as usize]
    }

    /// Whether the proposed order is among them.
    pub fn has(&self, model: Model, proposed: &[u32]) -> bool {
        self.orders(model).contains(proposed)
    }
}

/// Of all arrangements of the operations, in whatever order and however many, those that are legal.
fn orders(model: Model, history: &History, operations: &[Recorded]) -> BTreeSet<Vec<u32>> {
    let mut orders = BTreeSet::new();
    for arrangement in arrangements(operations.len()) {
        let arranged: Vec<&Recorded> = arrangement.iter().map(|at| &operations[*at]).collect();
        let steps = step::steps(&history.start, &arranged);
        if is_legal(model, &history.start, operations, &steps) {
            orders.insert(words(&step::proposed(history.family, &steps)));
        }
    }
    orders
}

/// Every sequence of different numbers below `count`, of every length.
fn arrangements(count: usize) -> Vec<Vec<usize>> {
    let mut all = vec![Vec::new()];
    let mut next = 0;
    while next < all.len() {
        let shorter = all[next].clone();
        let others = (0..count).filter(|number| !shorter.contains(number));
        all.extend(others.map(|number| [shorter.as_slice(), &[number]].concat()));
        next += 1;
    }
    all
}
