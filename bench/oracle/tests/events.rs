//! The list that `replay` reads, `crates/replay/data/events.txt`.

mod list;
mod reasons;

use reasons::{asked, Asked, Reason};
use std::collections::BTreeSet;

const INVOKE: i64 = 1;
const RETURN: i64 = 2;
const INVRET: i64 = 3;

#[test]
fn the_list_is_what_the_oracle_prints() {
    list::assert_is_what_the_oracle_prints("events");
}

#[test]
fn there_are_two_thousand_sequences() {
    let lines = list::lines("events");
    assert!(2000 <= lines.iter().filter(|line| line[0] == 0).count());
}

#[test]
fn each_event_of_each_thread_meets_each_reason_that_it_can_have() {
    let found: BTreeSet<_> = events()
        .iter()
        .map(|event| (event.family, event.kind, event.thread, event.reason))
        .collect();
    let mut expected = BTreeSet::new();
    for family in 0..3 {
        for thread in 0..8 {
            for (kind, reason) in [
                (INVOKE, Reason::Recorded),
                (INVOKE, Reason::Busy),
                (INVOKE, Reason::AfterInvalid),
                (RETURN, Reason::Recorded),
                (RETURN, Reason::Stray),
                (RETURN, Reason::AfterInvalid),
                (INVRET, Reason::Recorded),
                (INVRET, Reason::Busy),
                (INVRET, Reason::AfterInvalid),
            ] {
                expected.insert((family, kind, thread, reason));
            }
        }
    }
    assert_eq!(found, expected);
}

#[test]
fn an_event_is_recorded_exactly_where_no_reason_speaks_against_it() {
    for event in events() {
        assert_eq!(event.answer == 1, event.reason == Reason::Recorded);
    }
}

#[test]
fn each_operation_is_completed_by_each_return_of_its_family() {
    let found: BTreeSet<_> = events()
        .iter()
        .filter_map(|event| event.completed.map(|(op, ret)| (event.family, op, ret)))
        .collect();
    // Operations and returns of the register, the write-once register and the stack.
    let mut expected = BTreeSet::new();
    for (family, ops, rets) in [(0, 2, 2), (1, 2, 3), (2, 3, 3)] {
        for op in 0..ops {
            expected.extend((0..rets).map(|ret| (family, op, ret)));
        }
    }
    assert_eq!(found, expected);
}

#[test]
fn testers_are_filled_and_refuse_but_hold_no_more_than_64_operations() {
    let events = events();
    assert!(events.iter().all(|event| event.len <= 64));
    for family in 0..3 {
        for reason in [
            Reason::Recorded,
            Reason::Busy,
            Reason::Stray,
            Reason::AfterInvalid,
        ] {
            let full = |event: &Asked| event.family == family && event.len == 64;
            assert!(events
                .iter()
                .any(|event| full(event) && event.reason == reason));
        }
    }
}

#[test]
fn initial_stacks_hold_up_to_32_values() {
    let starts = list::lines("events");
    let depths = starts
        .iter()
        .filter(|line| line[0] == 0)
        .map(|line| line[2]);
    assert_eq!(depths.max(), Some(32));
}

fn events() -> Vec<Asked> {
    asked(list::lines("events"))
}
