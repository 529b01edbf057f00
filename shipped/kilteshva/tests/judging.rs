//! The linked library, through the safe function: a file for each answer that there is.

use kilteshva::{judge, Answer, Model, Refusal};

/// The register starts at 65; thread 0 invokes Read; thread 1 writes 66 (trace 14 of document 01).
const TRACE_14: &[u8] = b"RAW1\x00\x82\x01\x00\x01\x02\x00\x84\x01\x03\x00";

/// The register starts at 65; thread 0 writes 66; thread 1 then reads 65 (trace 5).
const STALE_READ: &[u8] = b"RAW1\x00\x82\x01\x00\x00\x84\x01\x01\x00\x02\x01\x03\x01\x82\x01";

fn linearizable(file: &[u8]) -> Answer {
    judge(file, Model::Linearizable, u64::MAX)
}

fn order(threads: &[u8], attempts: u64) -> Answer {
    Answer::Order {
        threads: threads.to_vec(),
        attempts,
    }
}

/// A register that starts at 0, with these events.
fn register(events: &[u8]) -> Vec<u8> {
    [b"RAW1\x00\x00", events].concat()
}

#[test]
fn an_order() {
    for model in [Model::Sequential, Model::Linearizable] {
        assert_eq!(judge(TRACE_14, model, 2), order(&[0, 1], 2));
    }
    assert_eq!(linearizable(&register(&[])), order(&[], 0));
}

#[test]
fn no_order_for_one_model_and_an_order_for_the_other() {
    assert_eq!(linearizable(STALE_READ), Answer::NoOrder { attempts: 3 });
    let sequential = judge(STALE_READ, Model::Sequential, u64::MAX);
    assert_eq!(sequential, order(&[1, 0], 4));
}

#[test]
fn undecided_one_attempt_short() {
    let under = |budget| judge(STALE_READ, Model::Linearizable, budget);
    assert_eq!(under(0), Answer::Undecided { attempts: 0 });
    assert_eq!(under(2), Answer::Undecided { attempts: 2 });
    assert_eq!(under(3), Answer::NoOrder { attempts: 3 });
}

#[test]
fn invalid_at_the_event_that_contradicts() {
    let refusal = Refusal::SecondInvoke;
    let second_invoke = linearizable(&register(&[0, 1, 0, 1]));
    assert_eq!(second_invoke, Answer::Invalid { refusal, place: 8 });
    let refusal = Refusal::StrayReturn;
    let stray_return = linearizable(&register(&[0, 1, 3, 0]));
    assert_eq!(stray_return, Answer::Invalid { refusal, place: 8 });
}

#[test]
fn refused_at_each_place() {
    let of = |file: &[u8]| match linearizable(file) {
        Answer::Refused { refusal, place } => (refusal, place),
        other => panic!("{other}"),
    };
    let many = [0, 1, 1, 0].repeat(64);
    assert_eq!(of(&register(&[0, 1, 16, 1])), (Refusal::ThreadAbove7, 8));
    assert_eq!(
        of(&register(&[many.as_slice(), &[0, 1]].concat())),
        (Refusal::TooManyOperations, 6 + 256)
    );
    assert_eq!(of(&[0; 65_537]), (Refusal::FileTooLong, 0));
    assert_eq!(of(&[0; 65_536]), (Refusal::NotACapture, 0));
    assert_eq!(of(&[]), (Refusal::NotACapture, 0));
    assert_eq!(of(b"RAW1"), (Refusal::CutOff, 0));
    assert_eq!(of(&register(&[0])), (Refusal::CutOff, 6));
    assert_eq!(
        of(&register(&[255, 255, 255, 255, 16])),
        (Refusal::NumberTooLarge, 6)
    );
    assert_eq!(of(&register(&[0, 2])), (Refusal::UnknownCode, 6));
    assert_eq!(of(b"RAW1\x03"), (Refusal::UnknownCode, 0));
    assert_eq!(of(b"RAW1\x02\x21"), (Refusal::InitialStackTooDeep, 0));
}

#[test]
fn any_number_of_threads_may_call_at_once() {
    std::thread::scope(|scope| {
        for _ in 0..8 {
            scope.spawn(|| {
                for _ in 0..1000 {
                    assert_eq!(linearizable(TRACE_14), order(&[0, 1], 2));
                }
            });
        }
    });
}
