//! A place's return changed: to another one, or to words that are no return.

use super::instead;
use crate::family::Family;
use crate::named;
use crate::place::Place;
use crate::proposal::{Kind, Unanswered};
use crate::record::{Record, Recorded};

/// The bits of a value that are turned over, one at a time.
const BITS: [u32; 4] = [1, 2, 1 << 8, 1 << 31];

/// What makes words no return.
#[derive(Clone, Copy, Debug, Eq, Ord, PartialEq, PartialOrd)]
pub enum NoReturn {
    /// The family has no return of this number.
    Number(u32),
    /// No return carries this many values.
    Count(u32),
    /// A value where none is carried.
    Value,
}

/// Each place with another return: its value, its number or its count changed, or what another operation returned.
pub fn changed(family: Family, record: &Record, order: &[Place]) -> Vec<Unanswered> {
    let mut all = Vec::new();
    for (at, operation) in named::operations(record, order).into_iter().enumerate() {
        let changes = if operation.is_some_and(Recorded::is_in_flight) {
            let wrong = altered(family, order[at]).into_iter();
            wrong
                .map(|(_, place)| (Kind::PendingWrong, place))
                .collect()
        } else {
            [
                altered(family, order[at]),
                of_others(family, record, order[at]),
            ]
            .concat()
        };
        let changed = changes.into_iter();
        all.extend(changed.map(|(kind, place)| (kind, instead(order, at, place))));
    }
    all
}

/// The place with its return's value, number or count changed.
fn altered(family: Family, place: Place) -> Vec<(Kind, Place)> {
    let mut all = Vec::new();
    if place.count == 1 {
        let value = |bit| Place {
            value: place.value ^ bit,
            ..place
        };
        all.extend(BITS.map(|bit| (Kind::Value(bit), value(bit))));
    }
    let numbers = (0..family.returns()).filter(|number| *number != place.number);
    all.extend(numbers.map(|number| (Kind::Number, Place { number, ..place })));
    let count = 1 - place.count;
    all.push((
        Kind::Count,
        Place {
            count,
            value: 0,
            ..place
        },
    ));
    all
}

/// The place with what other operations returned.
fn of_others(family: Family, record: &Record, place: Place) -> Vec<(Kind, Place)> {
    let returned = record
        .operations
        .iter()
        .filter_map(|recorded| recorded.returned);
    returned
        .map(|(_, returned)| Place::new(place.thread, family.words(returned)))
        .filter(|other| *other != place)
        .map(|other| (Kind::ReturnOfAnother, other))
        .collect()
}

/// The place with words that are no return of the family.
pub fn none(family: Family, place: Place) -> Vec<(Kind, Place)> {
    let mut all = Vec::new();
    let mut add = |what, place| all.push((Kind::NoReturn(what), place));
    for number in (family.returns()..=3).chain([u32::MAX]) {
        add(NoReturn::Number(number), Place { number, ..place });
    }
    for count in [2, u32::MAX] {
        add(NoReturn::Count(count), Place { count, ..place });
    }
    let value = place.value.max(1);
    add(
        NoReturn::Value,
        Place {
            count: 0,
            value,
            ..place
        },
    );
    all
}
