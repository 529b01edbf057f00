//! The search against the meaning of a legal order, on small histories: every sequence of operations is held
//! to document 01's sentences, and the least legal one has to be what the search finds.

use capture::{
    Call, Event, Object, Random, RegisterOp, RegisterRet, StackOp, StackRet, WriteOnceOp,
    WriteOnceRet,
};
use reference::{invoke, judge, Model, Operation, Tester, Verdict};

const OPERATIONS: usize = 5;
const HISTORIES: u64 = 2_000;

#[test]
fn the_first_order_is_the_least_legal_one() {
    for model in [Model::Sequential, Model::Linearizable] {
        let mut found = 0;
        for seed in 0..HISTORIES {
            let tester = history(&mut Random::new(seed));
            let least = least_legal(&tester, model);
            found += u64::from(least.is_some());
            let expected = least.map_or(Verdict::NoOrder, Verdict::Order);
            let judged = judge(&tester, model, u64::MAX);
            assert_eq!(judged.verdict, expected, "{tester:?} {model:?}");
        }
        // Both verdicts were met often enough to tell.
        assert!(HISTORIES / 10 < found && found < HISTORIES * 9 / 10);
    }
}

#[test]
fn a_budget_covers_the_search_exactly_from_its_attempts_on() {
    for seed in 0..HISTORIES / 4 {
        let tester = history(&mut Random::new(seed));
        for model in [Model::Sequential, Model::Linearizable] {
            let whole = judge(&tester, model, u64::MAX);
            assert!(whole.attempts <= always_suffice(&tester));
            for budget in 0..whole.attempts {
                let cut = judge(&tester, model, budget);
                assert_eq!((cut.verdict, cut.attempts), (Verdict::Undecided, budget));
            }
            assert_eq!(judge(&tester, model, whole.attempts), whole);
            assert_eq!(judge(&tester, model, whole.attempts + 1), whole);
        }
    }
}

/// k + k² + … + kⁿ for k threads with an operation and n operations.
fn always_suffice(tester: &Tester) -> u64 {
    let has_one = |thread| tester.operations.iter().any(|op| op.thread == thread);
    let k = (0..8).filter(|thread| has_one(*thread)).count() as u64;
    (1..=tester.len() as u32).map(|n| k.pow(n)).sum()
}

/// The threads of the least legal order, if there is one.
fn least_legal(tester: &Tester, model: Model) -> Option<Vec<u8>> {
    let threads = |order: Vec<usize>| {
        order
            .iter()
            .map(|at| tester.operations[*at].thread)
            .collect()
    };
    sequences(tester.len())
        .into_iter()
        .filter(|order| is_legal(tester, model, order))
        .map(threads)
        .min()
}

/// Every sequence of some of so many operations, each at most once.
fn sequences(operations: usize) -> Vec<Vec<usize>> {
    let mut all = vec![vec![]];
    let mut from = 0;
    while from < all.len() {
        for at in 0..operations {
            if !all[from].contains(&at) {
                all.push([all[from].as_slice(), &[at]].concat());
            }
        }
        from += 1;
    }
    all
}

fn is_legal(tester: &Tester, model: Model, order: &[usize]) -> bool {
    let operation = |at: usize| &tester.operations[at];
    let completed = |at: usize| operation(at).returned.is_some();
    let own_order = |first, second| {
        operation(first).thread == operation(second).thread
            && operation(first).invoked < operation(second).invoked
    };
    let real_time = |first, second| returned_before(operation(first), operation(second));
    (0..tester.len()).all(|at| !completed(at) || order.contains(&at))
        && order.last().is_none_or(|last| completed(*last))
        && keeps(order, own_order)
        && (model == Model::Sequential || keeps(order, real_time))
        && every_step_is_right(tester, order)
}

/// No operation stands after one that it has to stand before.
fn keeps(order: &[usize], has_to_stand_before: impl Fn(usize, usize) -> bool) -> bool {
    (0..order.len()).all(|at| {
        let mut later = order[at + 1..].iter();
        later.all(|later| !has_to_stand_before(*later, order[at]))
    })
}

fn returned_before(first: &Operation, second: &Operation) -> bool {
    first
        .returned
        .is_some_and(|(returned, _)| returned < second.invoked)
}

fn every_step_is_right(tester: &Tester, order: &[usize]) -> bool {
    let mut object = tester.start.clone();
    order.iter().all(|at| {
        let operation = &tester.operations[*at];
        let (after, answer) = invoke(&object, operation.op);
        object = after;
        operation.returned.is_none_or(|(_, ret)| ret == answer)
    })
}

/// A small history of up to three threads, in which every event is recorded.
fn history(random: &mut Random) -> Tester {
    let start = match random.below(3) {
        0 => Object::Register(0),
        1 => Object::WriteOnce(random.pick(&[None, Some(0)])),
        _ => Object::Stack(vec![0; random.below(2)]),
    };
    let mut tester = Tester::new(start);
    let threads = 1 + random.below(3);
    let mut busy = [false; 3];
    for _ in 0..random.below(2 * OPERATIONS + 1) {
        let thread = random.below(threads);
        if !busy[thread] && tester.len() == OPERATIONS {
            continue;
        }
        let call = if busy[thread] {
            a_return(&tester.start, random)
        } else {
            an_invoke(&tester.start, random)
        };
        busy[thread] = !busy[thread];
        let thread = thread as u32;
        assert_eq!(tester.on_event(Event { thread, call }), 0);
    }
    tester
}

fn an_invoke(object: &Object, random: &mut Random) -> Call {
    let value = random.below(2) as i32;
    Call::Invoke(match object {
        Object::Register(_) => random
            .pick(&[RegisterOp::Write(value), RegisterOp::Read])
            .into(),
        Object::WriteOnce(_) => random
            .pick(&[WriteOnceOp::Write(value), WriteOnceOp::Read])
            .into(),
        Object::Stack(_) => random
            .pick(&[StackOp::Push(value), StackOp::Pop, StackOp::Len])
            .into(),
    })
}

fn a_return(object: &Object, random: &mut Random) -> Call {
    let value = random.below(2) as i32;
    let held = random.pick(&[None, Some(value)]);
    Call::Return(match object {
        Object::Register(_) => random
            .pick(&[RegisterRet::WriteOk, RegisterRet::ReadOk(value)])
            .into(),
        Object::WriteOnce(_) => random
            .pick(&[
                WriteOnceRet::WriteOk,
                WriteOnceRet::WriteFail,
                WriteOnceRet::ReadOk(held),
            ])
            .into(),
        Object::Stack(_) => random
            .pick(&[
                StackRet::PushOk,
                StackRet::PopOk(held),
                StackRet::LenOk(value as u32),
            ])
            .into(),
    })
}
