//! The search against the traces 1 to 9 of document 01, which say its attempts.

use super::history::Event::{Invoke, Return};
use super::history::{Event, History};
use super::search::{search, Verdict};
use crate::family::Family;
use crate::testers::Model::{self, Linearizable, Sequential};
use stateright::semantics::register::Register;
use stateright::semantics::register::RegisterOp::{Read, Write};
use stateright::semantics::register::RegisterRet::{ReadOk, WriteOk};
use stateright::semantics::vec::{VecOp, VecRet};
use stateright::semantics::write_once_register::{WORegister, WORegisterOp, WORegisterRet};

/// The threads of the order, if there is one, and the attempts.
type Answer = (Option<&'static [usize]>, u64);

/// No trace needs more attempts.
const ENOUGH: u64 = 4;

fn assert_search<F: Family>(history: &History<F>, model: Model, (order, attempts): Answer) {
    let searched = search(history, model, ENOUGH).expect("a short search");
    let found: Option<Vec<usize>> = match searched.verdict {
        Verdict::Invalid => panic!("a valid history"),
        Verdict::NoOrder => None,
        Verdict::Order(places) => Some(places.iter().map(|place| place.thread).collect()),
    };
    assert_eq!(found.as_deref(), order);
    assert_eq!(searched.attempts, attempts);
}

fn assert_both<F: Family>(history: &History<F>, answer: Answer) {
    assert_search(history, Sequential, answer);
    assert_search(history, Linearizable, answer);
}

/// Events of a register that starts at 65.
fn register(events: &[Event<Register<i32>>]) -> History<Register<i32>> {
    History {
        start: Register(65),
        events: events.to_vec(),
    }
}

#[test]
fn trace_1() {
    assert_both(&register(&[]), (Some(&[]), 0));
}

#[test]
fn trace_2() {
    assert_both(&register(&[Invoke(0, Read)]), (Some(&[]), 0));
}

#[test]
fn trace_3() {
    let history = register(&[Invoke(0, Read), Invoke(1, Write(66)), Return(1, WriteOk)]);
    assert_both(&history, (Some(&[0, 1]), 2));
    let searched = search(&history, Linearizable, ENOUGH).expect("a short search");
    let Verdict::Order(places) = searched.verdict else {
        panic!("an order");
    };
    assert_eq!(places[0].ret, ReadOk(65));
}

#[test]
fn trace_4() {
    let history = register(&[Invoke(1, Write(66)), Return(1, WriteOk), Invoke(0, Read)]);
    assert_search(&history, Linearizable, (Some(&[1]), 2));
    assert_search(&history, Sequential, (Some(&[0, 1]), 2));
}

fn stale_read() -> History<Register<i32>> {
    register(&[
        Invoke(0, Write(66)),
        Return(0, WriteOk),
        Invoke(1, Read),
        Return(1, ReadOk(65)),
    ])
}

#[test]
fn trace_5() {
    assert_search(&stale_read(), Linearizable, (None, 3));
    assert_search(&stale_read(), Sequential, (Some(&[1, 0]), 4));
}

#[test]
fn trace_6() {
    assert!(search(&stale_read(), Linearizable, 2).is_err());
    assert!(search(&stale_read(), Linearizable, 3).is_ok());
}

#[test]
fn trace_7() {
    let mut history = register(&[Invoke(0, Read), Return(0, ReadOk(66))]);
    assert_both(&history, (None, 1));
    let write = [Invoke(1, Write(66)), Return(1, WriteOk)];
    history.events.extend(write);
    assert_search(&history, Sequential, (Some(&[1, 0]), 3));
    assert_search(&history, Linearizable, (None, 2));
}

#[test]
fn trace_8() {
    let history = History {
        start: WORegister(None),
        events: vec![
            Invoke(0, WORegisterOp::Write(5)),
            Invoke(1, WORegisterOp::Write(6)),
            Return(0, WORegisterRet::WriteOk),
            Return(1, WORegisterRet::WriteOk),
        ],
    };
    assert_both(&history, (None, 4));
}

#[test]
fn trace_9() {
    let history = History {
        start: Vec::new(),
        events: vec![
            Invoke(0, VecOp::Push(1)),
            Invoke(1, VecOp::Pop),
            Return(0, VecRet::PushOk),
            Return(1, VecRet::PopOk(None)),
        ],
    };
    assert_both(&history, (Some(&[1, 0]), 4));
}
