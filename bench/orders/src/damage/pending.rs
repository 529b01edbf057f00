//! In-flight operations put into an order that leaves them out.

use super::with;
use crate::family::Family;
use crate::history::History;
use crate::named;
use crate::object::Return;
use crate::place::Place;
use crate::proposal::{Kind, Unanswered};
use crate::record::{Record, Recorded};
use std::ptr;

pub fn put_in(history: &History, record: &Record, order: &[Place]) -> Vec<Unanswered> {
    let named = named::operations(record, order);
    let mut all = Vec::new();
    for recorded in record
        .operations
        .iter()
        .filter(|recorded| recorded.is_in_flight())
    {
        let mut placed = named.iter().flatten();
        if !placed.any(|placed| ptr::eq(*placed, recorded)) {
            for at in 0..=order.len() {
                all.extend(put_in_at(history, record, order, recorded, at));
            }
        }
    }
    all
}

/// The operation before this place, with the right return and with others, or at the end.
fn put_in_at(
    history: &History,
    record: &Record,
    order: &[Place],
    recorded: &Recorded,
    at: usize,
) -> Vec<Unanswered> {
    let mut object = named::object_after(history, record, &order[..at]);
    let right = object.invoke(recorded.operation);
    let put_in = |returned| {
        let place = Place::new(recorded.thread, history.family.words(returned));
        with(order, at, place)
    };
    if at == order.len() {
        return vec![(Kind::PendingAtEnd, put_in(right))];
    }
    let mut all = vec![(Kind::PendingRight, put_in(right))];
    for returned in some_returns(history.family) {
        if *returned != right {
            all.push((Kind::PendingWrong, put_in(*returned)));
        }
    }
    all
}

fn some_returns(family: Family) -> &'static [Return] {
    match family {
        Family::Register => &[
            Return::WriteOk,
            Return::ReadOk(Some(0)),
            Return::ReadOk(Some(1)),
        ],
        Family::WriteOnce => &[
            Return::WriteOk,
            Return::WriteFail,
            Return::ReadOk(None),
            Return::ReadOk(Some(0)),
            Return::ReadOk(Some(1)),
        ],
        Family::Stack => &[
            Return::PushOk,
            Return::PopOk(None),
            Return::PopOk(Some(0)),
            Return::PopOk(Some(1)),
            Return::LenOk(0),
            Return::LenOk(1),
        ],
    }
}
