//! The enumerator: what it says of the traces and of the histories that the Rust judged.

mod data;

use orders::every::{Legal, SMALL};
use orders::history::{self, History, Verdict};
use orders::legal::{is_legal, Model, MODELS};
use orders::named;
use orders::place::{places, words};
use orders::record::Record;

/// Thread numbers of an order.
type Threads = Vec<u32>;

#[test]
fn trace_1_empty() {
    assert_legal("0 0 1 65", &[&[]], &[&[]]);
}

#[test]
fn trace_2_one_read_in_flight_only() {
    assert_legal("0 0 1 65\n1 0 1 0", &[&[]], &[&[]]);
}

#[test]
fn trace_3_a_read_in_flight_beside_a_write() {
    let trace = "0 0 1 65\n1 0 1 0\n1 1 0 66\n2 1 0 0 0";
    assert_legal(trace, &[&[0, 1], &[1]], &[&[0, 1], &[1]]);
    // The read gives 65, which is sent as 130.
    let legal = legal(&read(trace));
    let first = legal.orders(Model::Linearizable).first();
    assert_eq!(first, Some(&vec![0, 1, 1, 130, 1, 0, 0, 0]));
}

#[test]
fn trace_4_a_read_in_flight_after_a_write() {
    let trace = "0 0 1 65\n1 1 0 66\n2 1 0 0 0\n1 0 1 0";
    assert_legal(trace, &[&[0, 1], &[1]], &[&[1]]);
}

#[test]
fn traces_5_and_6_a_stale_read() {
    let trace = "0 0 1 65\n1 0 0 66\n2 0 0 0 0\n1 1 1 0\n2 1 1 1 65";
    assert_legal(trace, &[&[1, 0]], &[]);
}

#[test]
fn trace_7_a_read_of_what_is_written_later() {
    let opening = "0 0 1 65\n1 0 1 0\n2 0 1 1 66";
    assert_legal(opening, &[], &[]);
    let whole = format!("{opening}\n1 1 0 66\n2 1 0 0 0");
    assert_legal(&whole, &[&[1, 0]], &[]);
}

#[test]
fn trace_8_two_writes_to_a_write_once() {
    let trace = "0 1 0\n1 0 0 5\n1 1 0 6\n2 0 0 0 0\n2 1 0 0 0";
    assert_legal(trace, &[], &[]);
}

#[test]
fn trace_9_a_pop_beside_a_push() {
    let trace = "0 2 0\n1 0 0 1\n1 1 1 0\n2 0 0 0 0\n2 1 1 0 0";
    assert_legal(trace, &[&[1, 0]], &[&[1, 0]]);
}

#[test]
fn the_rust_found_the_first_legal_order_of_each_small_history() {
    let mut judged = 0;
    for history in history::read(&data::text("histories")) {
        let record = Record::of(&history.events);
        assert_eq!(history.verdicts.len(), MODELS.len());
        if record.operations.len() <= SMALL {
            let legal = legal(&history);
            for (model, verdict) in MODELS.into_iter().zip(&history.verdicts) {
                let first = legal.orders(model).first();
                match verdict {
                    Verdict::Order(order) => assert_eq!(Some(&words(order)), first),
                    Verdict::NoOrder => assert_eq!(None, first),
                    Verdict::Invalid => {}
                }
                assert_eq!(record.valid, !matches!(verdict, Verdict::Invalid));
                judged += 1;
            }
        }
    }
    assert!(5000 <= judged);
}

#[test]
fn the_sentences_hold_of_what_the_rust_found_for_each_larger_history() {
    let mut judged = 0;
    for history in history::read(&data::text("histories")) {
        let record = Record::of(&history.events);
        if record.operations.len() > SMALL {
            for model in MODELS {
                if let Some(order) = history.order(model) {
                    let steps = named::steps(&history, &record, order).expect("its steps");
                    assert!(is_legal(model, &history.start, &record.operations, &steps));
                    judged += 1;
                }
            }
        }
    }
    assert!(1000 <= judged);
}

/// The legal orders are those of these thread numbers.
fn assert_legal(trace: &str, sequential: &[&[u32]], linearizable: &[&[u32]]) {
    let legal = legal(&read(trace));
    for (model, expected) in MODELS.into_iter().zip([sequential, linearizable]) {
        let orders = legal.orders(model).iter();
        let threads: Vec<Threads> = orders.map(|words| threads(words)).collect();
        assert_eq!(threads, expected, "{model:?}");
    }
}

fn threads(words: &[u32]) -> Threads {
    places(words).iter().map(|place| place.thread).collect()
}

fn read(trace: &str) -> History {
    history::read(trace).pop().expect("a history")
}

fn legal(history: &History) -> Legal {
    Legal::of(history, &Record::of(&history.events))
}
