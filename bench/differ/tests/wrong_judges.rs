//! A run finds what is wrong with a judge: each of these differs from the reference in one thing.

use capture::{Call, Capture, Event};
use cases::answer::Judge;
use differ::run::run;
use reference::{host_call, load, ANSWER};

const CASES: u64 = 5_000;

/// How many answers of a judge are found to be wrong.
fn found(judge: Judge) -> u64 {
    run(judge, CASES, 1, drop).differ
}

/// Sets a byte of an answer, if there is one.
fn set(answer: &mut [u8], at: usize, change: impl Fn(u8) -> u8) {
    if answer.len() >= ANSWER {
        answer[at] = change(answer[at]);
    }
}

/// Judges another file, or under another model, or both; but where that takes long, as it should.
fn instead(
    (wrong_file, wrong_model): (&[u8], u32),
    (file, model): (&[u8], u32),
    budget: u64,
    answer: &mut [u8],
) -> u32 {
    const LONG: u64 = 1_000;
    let result = host_call(wrong_file, wrong_model, budget.min(LONG), answer);
    if result == 0 && answer[0] == 2 && budget > LONG {
        return host_call(file, model, budget, answer);
    }
    result
}

fn answers_nothing(_: &[u8], _: u32, _: u64, _: &mut [u8]) -> u32 {
    0
}

fn order_to_all(_: &[u8], model: u32, _: u64, answer: &mut [u8]) -> u32 {
    host_call(b"RAW1\x00\x00", model, 0, answer)
}

fn no_order_to_all(_: &[u8], model: u32, _: u64, answer: &mut [u8]) -> u32 {
    host_call(b"RAW1\x00\x00\x00\x01\x01\x01\x01", model, 1, answer)
}

fn undecided_to_all(file: &[u8], model: u32, _: u64, answer: &mut [u8]) -> u32 {
    host_call(file, model, 0, answer)
}

fn one_attempt_early(file: &[u8], model: u32, budget: u64, answer: &mut [u8]) -> u32 {
    host_call(file, model, budget.saturating_sub(1), answer)
}

fn one_attempt_late(file: &[u8], model: u32, budget: u64, answer: &mut [u8]) -> u32 {
    host_call(file, model, budget.saturating_add(1), answer)
}

fn budget_of_32_bits(file: &[u8], model: u32, budget: u64, answer: &mut [u8]) -> u32 {
    host_call(file, model, budget as u32 as u64, answer)
}

fn sequential_only(file: &[u8], model: u32, budget: u64, answer: &mut [u8]) -> u32 {
    let wrong_model = if model == 1 { 0 } else { model };
    instead((file, wrong_model), (file, model), budget, answer)
}

fn model_of_8_bits(file: &[u8], model: u32, budget: u64, answer: &mut [u8]) -> u32 {
    instead((file, model & 255), (file, model), budget, answer)
}

fn model_before_buffer(file: &[u8], model: u32, budget: u64, answer: &mut [u8]) -> u32 {
    if model > 1 {
        return 11;
    }
    host_call(file, model, budget, answer)
}

fn counts_one_more(file: &[u8], model: u32, budget: u64, answer: &mut [u8]) -> u32 {
    let result = host_call(file, model, budget, answer);
    set(answer, 3, |count| count.wrapping_add(1));
    result
}

fn place_one_off(file: &[u8], model: u32, budget: u64, answer: &mut [u8]) -> u32 {
    let result = host_call(file, model, budget, answer);
    set(answer, 11, |place| place.saturating_sub(1));
    result
}

fn another_order(file: &[u8], model: u32, budget: u64, answer: &mut [u8]) -> u32 {
    let result = host_call(file, model, budget, answer);
    if result == 0 {
        let length = usize::from(answer[2]);
        answer[15..15 + length].reverse();
    }
    result
}

fn writes_on(file: &[u8], model: u32, budget: u64, answer: &mut [u8]) -> u32 {
    let result = host_call(file, model, budget, answer);
    if let Some(byte) = answer.get_mut(ANSWER) {
        *byte = byte.wrapping_add(1);
    }
    result
}

fn writes_although_refused(file: &[u8], model: u32, budget: u64, answer: &mut [u8]) -> u32 {
    let result = host_call(file, model, budget, answer);
    if result == 11 {
        answer[0] = answer[0].wrapping_add(1);
    }
    result
}

fn a_byte_too_few(file: &[u8], model: u32, budget: u64, answer: &mut [u8]) -> u32 {
    let longest = file.len().min(65_536);
    host_call(&file[..longest], model, budget, answer)
}

/// Reads a file and judges the capture with some of its events left out.
fn without(file: &[u8], left_out: impl Fn(&[Event], usize) -> bool) -> Option<Vec<u8>> {
    let loaded = load(file);
    let events = &loaded.events;
    let kept = (0..events.len()).filter(|at| !left_out(events, *at));
    let capture = Capture {
        events: kept.map(|at| events[at]).collect(),
        start: loaded.tester.start,
    };
    (loaded.number == 0).then(|| capture.bytes())
}

fn forbids_those_in_flight(file: &[u8], model: u32, budget: u64, answer: &mut [u8]) -> u32 {
    let in_flight = |events: &[Event], at: usize| {
        let thread = events[at].thread;
        !events[at + 1..].iter().any(|event| event.thread == thread)
            && matches!(events[at].call, Call::Invoke(_))
    };
    let kept = without(file, in_flight);
    let wrong_file = kept.as_deref().unwrap_or(file);
    instead((wrong_file, model), (file, model), budget, answer)
}

fn drops_the_last_event(file: &[u8], model: u32, budget: u64, answer: &mut [u8]) -> u32 {
    let kept = without(file, |events, at| at + 1 == events.len());
    let wrong_file = kept.as_deref().unwrap_or(file);
    instead((wrong_file, model), (file, model), budget, answer)
}

#[test]
fn the_reference_does_not_differ_from_itself() {
    assert_eq!(found(host_call), 0);
}

#[test]
fn every_wrong_judge_is_found() {
    let wrong: [(&str, Judge); 18] = [
        ("answers nothing", answers_nothing),
        ("order to all", order_to_all),
        ("no order to all", no_order_to_all),
        ("undecided to all", undecided_to_all),
        ("one attempt early", one_attempt_early),
        ("one attempt late", one_attempt_late),
        ("budget of 32 bits", budget_of_32_bits),
        ("sequential only", sequential_only),
        ("model of 8 bits", model_of_8_bits),
        ("model before buffer", model_before_buffer),
        ("counts one more", counts_one_more),
        ("place one off", place_one_off),
        ("another order", another_order),
        ("writes on", writes_on),
        ("writes although refused", writes_although_refused),
        ("a byte too few", a_byte_too_few),
        ("forbids those in flight", forbids_those_in_flight),
        ("drops the last event", drops_the_last_event),
    ];
    for (name, judge) in wrong {
        let found = found(judge);
        println!("{name}: {found}");
        assert!(found > 0, "{name}");
    }
}
