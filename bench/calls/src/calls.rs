//! The exported call, from a file's bytes to the answer's, beside the Rust from the same bytes to its order.

use crate::called::{decided_by, one_pass, Called, File, Parts, Sides};
use crate::files::{self, Written};
use crate::histories::{histories, unbroken, History, LONG, SEED};
use crate::overlap;
use crate::reader::Read;
use crate::summary::{Measured, Summary};
use crate::testers::MODELS;
use stateright::semantics::register::Register;

pub fn print() {
    thousand::<Register<i32>>();
    thousand::<Vec<i32>>();
    for operations in [8, 12, 16, 24] {
        growth::<Register<i32>>(operations);
        growth::<Vec<i32>>(operations);
    }
    for operations in [32, 48, 64] {
        loading::<Register<i32>>(operations);
        loading::<Vec<i32>>(operations);
    }
}

/// A thousand files of twelve operations.
fn thousand<F: Written + Read>() {
    let histories = histories::<F>(1000, 12, SEED);
    println!("{}:", described(&histories, 12));
    for model in MODELS {
        let called = decided_by(u64::MAX, &histories, model);
        let [whole, loading, judging] = summaries(&called);
        println!("  {model}: {}", whole.verdicts());
        println!("    whole call: {}", whole.compared());
        println!("    loading alone: {}", loading.compared());
        println!("    judging alone: {}", judging.judged());
        let [whole, loading, judging] = one_pass(&called).map(passed);
        println!("    in one pass, whole call: {whole}");
        println!("    in one pass, loading alone: {loading}");
        println!("    in one pass, judging alone: {judging}");
    }
}

/// Two hundred files of so many operations.
fn growth<F: Written + Read>(operations: usize) {
    let histories = histories::<F>(200, operations, SEED);
    println!("{}:", described(&histories, operations));
    for model in MODELS {
        let called = decided_by(LONG, &histories, model);
        let [whole, loading, judging] = summaries(&called);
        println!("  {model}: {}", whole.means());
        println!("    loading alone: {}", loaded(&loading, operations));
        println!("    judging alone: {}", judging.judged());
    }
}

/// Two hundred files of so many operations that are loaded, and not searched.
fn loading<F: Written + Read>(operations: usize) {
    let histories = unbroken::<F>(200, operations, SEED);
    println!("{}:", described(&histories, operations));
    for model in MODELS {
        let measured = |history| {
            let [port, rust] = File::of(history, model).loading();
            Measured {
                has_order: true,
                attempts: 0.0,
                port,
                rust,
            }
        };
        let loading = Summary::of(histories.iter().map(measured).collect());
        println!("  {model}: loading alone: {}", loaded(&loading, operations));
    }
}

fn described<F: Written>(histories: &[History<F>], operations: usize) -> String {
    let bytes: usize = histories.iter().map(|one| files::bytes(one).len()).sum();
    let (name, count) = (F::NAME, histories.len());
    let each = bytes as f64 / count as f64;
    let percent = overlap::percent(histories);
    format!(
        "{count} {name} files of {operations} operations, of which {percent:.0} % overlap, \
         of {each:.0} bytes"
    )
}

fn summaries<F: Written + Read>(called: &[Called<F>]) -> Parts<Summary> {
    let measured: Vec<Parts<Measured>> = called.iter().map(Called::measured).collect();
    std::array::from_fn(|part| Summary::of(measured.iter().map(|parts| parts[part]).collect()))
}

fn loaded(loading: &Summary, operations: usize) -> String {
    let event = loading.of_an_event(2 * operations);
    format!("{}; {event}", loading.compared())
}

fn passed(times: Sides) -> String {
    let [port, rust] = times.map(|nanoseconds| nanoseconds / 1e6);
    let ratio = rust / port;
    format!("port {port:.2} ms, Rust {rust:.2} ms, {ratio:.2} times as fast")
}
