//! Every refusal number that a file, an event or the host call can meet, and which of two comes first.

mod common;

use capture::{Call, Event, Object, RegisterOp, StackOp, StackRet};
use common::{bytes, register};
use reference::{host_call, load, Tester};

/// Number and place.
fn refused(file: &[u8]) -> (u8, u32) {
    let loaded = load(file);
    (loaded.number, loaded.place)
}

fn header(hex: &str) -> (u8, u32) {
    refused(&bytes(&format!("52 41 57 31 {hex}")))
}

fn event(hex: &str) -> (u8, u32) {
    refused(&register(hex))
}

fn answer(file: &[u8]) -> [u8; 79] {
    let mut answer = [7; 79];
    assert_eq!(host_call(file, 1, u64::MAX, &mut answer), 0);
    answer
}

#[test]
fn events_are_refused_in_order_1_2_3_4_or_5_6() {
    let invoke = |thread, op| Event {
        thread,
        call: Call::Invoke(op),
    };
    let returns = |thread, ret| Event {
        thread,
        call: Call::Return(ret),
    };
    let read = RegisterOp::Read.into();
    let pop = StackOp::Pop.into();
    let popped = StackRet::PopOk(None).into();
    let mut tester = Tester::new(Object::Register(65));
    assert_eq!(tester.on_event(invoke(8, pop)), 2);
    assert_eq!(tester.on_event(invoke(256, read)), 2);
    assert_eq!(tester.on_event(invoke(7, pop)), 3);
    assert_eq!(tester.on_event(returns(7, popped)), 3);
    assert!(tester.valid && tester.is_empty());
    assert_eq!(tester.on_event(invoke(7, read)), 0);
    assert_eq!(tester.on_event(invoke(7, pop)), 3);
    assert_eq!(tester.on_event(invoke(7, read)), 4);
    assert_eq!(tester.on_event(invoke(8, pop)), 1);
    assert_eq!(tester.len(), 1);
}

#[test]
fn a_file_meets_2_with_a_thread_above_7() {
    assert_eq!(event("10 01"), (2, 7));
    assert_eq!(event("00 01 80 04 01"), (2, 9), "thread 256");
    assert_eq!(event("fe ff ff ff 0f 01"), (2, 7), "thread 2,147,483,647");
}

#[test]
fn a_file_meets_4_with_a_second_invoke_and_5_with_a_stray_return() {
    assert_eq!(event("00 01 00 01"), (4, 9));
    assert_eq!(event("00 01 03 00"), (5, 9));
}

#[test]
fn a_file_meets_20_before_21() {
    assert_eq!(refused(&vec![0; 65_537]), (20, 0));
    assert_eq!(refused(&vec![0; 65_536]), (21, 0));
    let mut long = register("");
    long.resize(65_536, 0);
    assert_eq!(refused(&long).0, 4, "Write by T0, again and again");
    long.push(0);
    assert_eq!(refused(&long), (20, 0));
}

#[test]
fn a_file_meets_21_without_its_opening_bytes() {
    for opening in ["", "52", "52 41", "52 41 57", "52 41 57 32 00 00", "00"] {
        assert_eq!(refused(&bytes(opening)), (21, 0));
    }
}

#[test]
fn numbers_cut_off_give_22() {
    for cut in ["", "80", "00", "00 80", "01", "01 01", "02", "02 02 00"] {
        assert_eq!(header(cut), (22, 0));
    }
    for cut in ["80", "00", "00 80", "00 00", "01 01", "01 01 ff ff ff ff"] {
        assert_eq!(event(&format!("02 01 {cut}")), (22, 9));
    }
}

#[test]
fn numbers_too_large_give_23() {
    assert_eq!(header("80 80 80 80 10"), (23, 0));
    assert_eq!(header("00 80 80 80 80 80"), (23, 0));
    assert_eq!(event("ff ff ff ff 10"), (23, 7));
    assert_eq!(event("02 01 00 00 80 80 80 80 80 00"), (23, 9));
}

#[test]
fn unknown_codes_give_24() {
    assert_eq!(header("03"), (24, 0), "object");
    assert_eq!(header("01 02"), (24, 0), "flag, before the missing value");
    assert_eq!(event("00 02"), (24, 7), "operation of the register");
    assert_eq!(event("02 01 01 02"), (24, 9), "return of the register");
    let write_once = |hex: &str| header(&format!("01 00 {hex}"));
    assert_eq!(write_once("00 02"), (24, 6));
    assert_eq!(write_once("00 01 01 03"), (24, 8));
    assert_eq!(write_once("00 01 01 02 02"), (24, 8), "flag of a return");
    let stack = |hex: &str| header(&format!("02 00 {hex}"));
    assert_eq!(stack("00 03"), (24, 6));
    assert_eq!(stack("00 01 01 03"), (24, 8));
    assert_eq!(stack("00 01 01 01 02"), (24, 8));
}

#[test]
fn an_event_is_read_whole_before_it_is_recorded() {
    assert_eq!(header("00 00 10 02"), (24, 6), "not 2: thread 8");
    assert_eq!(event("01 02"), (24, 7), "not 5: nothing in flight");
    assert_eq!(event("00 01 00"), (22, 9), "not 4: second invoke");
}

#[test]
fn an_initial_stack_over_32_gives_25() {
    assert_eq!(header("02 21"), (25, 0), "before the missing values");
    assert_eq!(header(&format!("02 20 {}", "00 ".repeat(32))), (0, 0));
    assert_eq!(header("02 ff ff ff ff 0f"), (25, 0));
}

#[test]
fn a_header_refusal_leaves_a_fresh_default_register() {
    let loaded = load(&bytes("52 41 57 31 02 21"));
    assert_eq!(loaded.tester, Tester::new(Object::Register(0)));
}

#[test]
fn refusals_4_and_5_are_invalid_and_the_others_a_refused_file() {
    let second_invoke = answer(&register("00 01 00 01"));
    assert_eq!(second_invoke[..3], [3, 4, 0]);
    assert_eq!(second_invoke[3..15], [0, 0, 0, 0, 0, 0, 0, 0, 9, 0, 0, 0]);
    assert_eq!(second_invoke[15..], [255; 64]);
    assert_eq!(answer(&register("01 00"))[..2], [3, 5]);
    assert_eq!(answer(&register("10 01"))[..2], [4, 2]);
    assert_eq!(answer(&bytes("52 41"))[..2], [4, 21]);
}

#[test]
fn the_host_call_refuses_a_short_buffer_before_an_unknown_model() {
    let file = register("");
    let call = |model, len| {
        let mut buffer = vec![7; len];
        let result = host_call(&file, model, 0, &mut buffer);
        (result, buffer.iter().all(|byte| *byte == 7))
    };
    assert_eq!(call(1, 0), (10, true));
    assert_eq!(call(2, 78), (10, true));
    assert_eq!(call(2, 79), (11, true));
    assert_eq!(call(256, 100), (11, true));
    assert_eq!(call(65_536, 100), (11, true));
    assert_eq!(call(u32::MAX, 79), (11, true));
    assert_eq!(call(0, 79), (0, false));
}

#[test]
fn bytes_from_79_on_keep_their_contents() {
    let mut buffer = [7; 100];
    assert_eq!(host_call(&register(""), 1, 0, &mut buffer), 0);
    assert_eq!(buffer[79..], [7; 21]);
}
