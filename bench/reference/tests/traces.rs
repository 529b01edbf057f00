//! The traces of document 01, each as the bytes of a file.

mod common;

use capture::{Call, Event, RegisterOp};
use common::{bytes, register};
use reference::{host_call, judge, load, Model, Verdict};

/// T1 writes 66, done.
const T1_WRITES_66: &str = "02 00 84 01 03 00";
/// T0 writes 66, done; T1 reads 65, done.
const TRACE_5: &str = "00 00 84 01 01 00 02 01 03 01 82 01";

/// The verdict and the attempts, for a file that loads.
fn judged(file: &[u8], model: Model, budget: u64) -> (Verdict, u64) {
    let loaded = load(file);
    assert_eq!((loaded.number, loaded.place), (0, 0));
    let judged = judge(&loaded.tester, model, budget);
    (judged.verdict, judged.attempts)
}

fn linearizable(file: &[u8]) -> (Verdict, u64) {
    judged(file, Model::Linearizable, u64::MAX)
}

fn sequential(file: &[u8]) -> (Verdict, u64) {
    judged(file, Model::Sequential, u64::MAX)
}

/// What both models say.
fn both(file: &[u8]) -> (Verdict, u64) {
    assert_eq!(linearizable(file), sequential(file));
    linearizable(file)
}

fn order(threads: &[u8]) -> Verdict {
    Verdict::Order(threads.to_vec())
}

#[test]
fn trace_1_empty() {
    for model in [Model::Sequential, Model::Linearizable] {
        assert_eq!(judged(&register(""), model, 0), (order(&[]), 0));
    }
}

#[test]
fn trace_2_one_read_in_flight() {
    assert_eq!(both(&register("00 01")), (order(&[]), 0));
}

#[test]
fn trace_3_a_pending_read_is_placed() {
    let file = register(&format!("00 01 {T1_WRITES_66}"));
    assert_eq!(both(&file), (order(&[0, 1]), 2));
}

#[test]
fn trace_4_a_later_pending_read_waits_for_real_time() {
    let file = register(&format!("{T1_WRITES_66} 00 01"));
    assert_eq!(linearizable(&file), (order(&[1]), 2));
    assert_eq!(sequential(&file), (order(&[0, 1]), 2));
}

#[test]
fn trace_5_a_stale_read() {
    let file = register(TRACE_5);
    assert_eq!(linearizable(&file), (Verdict::NoOrder, 3));
    assert_eq!(sequential(&file), (order(&[1, 0]), 4));
}

#[test]
fn trace_6_a_budget_one_short() {
    let file = register(TRACE_5);
    let under = |budget| judged(&file, Model::Linearizable, budget);
    assert_eq!(under(2), (Verdict::Undecided, 2));
    assert_eq!(under(3), (Verdict::NoOrder, 3));
}

#[test]
fn trace_7_a_refusal_that_lifts_for_the_sequential_model() {
    let read = "00 01 01 01 84 01";
    assert_eq!(both(&register(read)), (Verdict::NoOrder, 1));
    let file = register(&format!("{read} {T1_WRITES_66}"));
    assert_eq!(sequential(&file), (order(&[1, 0]), 3));
    assert_eq!(linearizable(&file), (Verdict::NoOrder, 2));
}

#[test]
fn trace_8_two_writes_once() {
    let file = bytes("52 41 57 31 01 00 00 00 0a 02 00 0c 01 00 03 00");
    assert_eq!(both(&file), (Verdict::NoOrder, 4));
}

#[test]
fn trace_9_a_pop_before_an_overlapping_push() {
    let file = bytes("52 41 57 31 02 00 00 00 02 02 01 01 00 03 01 00");
    assert_eq!(both(&file), (order(&[1, 0]), 4));
}

#[test]
fn trace_10_a_second_invoke() {
    let mut loaded = load(&register("00 01 00 00 02"));
    assert_eq!((loaded.number, loaded.place), (4, 9));
    assert_eq!(loaded.tester.len(), 1);
    for thread in 0..8 {
        let call = Call::Invoke(RegisterOp::Read.into());
        assert_eq!(loaded.tester.on_event(Event { thread, call }), 1);
    }
    let judged = judge(&loaded.tester, Model::Linearizable, u64::MAX);
    assert_eq!((judged.verdict, judged.attempts), (Verdict::Invalid, 0));
}

#[test]
fn trace_11_a_write_that_returned_read_ok() {
    let file = register("00 00 84 01 01 01 82 01");
    assert_eq!(both(&file), (Verdict::NoOrder, 1));
}

#[test]
fn trace_12_the_65th_invoke() {
    let sixty_three = "00 01 01 01 82 01 ".repeat(63);
    let place_after_64 = 7 + 6 * 63 + 2;
    let with = |event: &str| load(&register(&format!("{sixty_three} 00 01 {event}")));
    let full = with("");
    assert_eq!((full.number, full.tester.len()), (0, 64));
    let idle = with("02 01");
    assert_eq!((idle.number, idle.place), (6, place_after_64));
    assert!(idle.tester.valid);
    let busy = with("00 01");
    assert_eq!((busy.number, busy.place), (4, place_after_64));
    assert!(!busy.tester.valid);
}

#[test]
fn trace_13_extreme_numbers() {
    let start = |hex: &str| load(&bytes(&format!("52 41 57 31 00 {hex}")));
    assert_eq!(
        start("01").tester.start,
        capture::Object::Register(-1),
        "-1 is sent as 01"
    );
    assert_eq!(
        start("ff ff ff ff 0f").tester.start,
        capture::Object::Register(i32::MIN)
    );
    assert_eq!(start("ff ff ff ff 10").number, 23);
}

#[test]
fn trace_14_the_79_bytes() {
    let file = bytes("52 41 57 31 00 82 01 00 01 02 00 84 01 03 00");
    let mut expected = bytes("00 00 02 02 00 00 00 00 00 00 00 00 00 00 00 00 01");
    expected.extend([255; 62]);
    for (model, budget) in [(0, 2), (1, 2), (0, 3), (1, u64::MAX)] {
        let mut answer = [0; 79];
        assert_eq!(host_call(&file, model, budget, &mut answer), 0);
        assert_eq!(answer.as_slice(), expected);
    }
}
