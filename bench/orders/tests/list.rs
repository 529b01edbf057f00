//! The list that `replay` reads, `crates/replay/data/orders.txt`.

mod data;

use std::collections::BTreeSet;
use std::fs::File;
use std::process::Command;

/// The most that the file may have.
const BYTES: usize = 1_500_000;

/// The most numbers of a line.
const NUMBERS: usize = 1_100;

#[test]
fn the_list_is_what_the_program_prints() {
    let histories = File::open(format!("{}histories.txt", data::DATA)).expect("the histories");
    let orders = Command::new(env!("CARGO_BIN_EXE_orders"))
        .stdin(histories)
        .output()
        .expect("the program");
    assert!(orders.status.success());
    assert!(
        orders.stdout == data::text("orders").as_bytes(),
        "the list differs: bench/README.md says how it is made anew"
    );
}

#[test]
fn there_are_five_thousand_proposals() {
    let proposals = lines().into_iter().filter(|line| line[0] == 3);
    assert!(5000 <= proposals.count());
    assert!(data::text("orders").len() <= BYTES);
}

#[test]
fn a_proposal_is_natural_numbers_below_2_to_the_32_as_many_as_it_says() {
    for line in lines() {
        assert!(line.len() <= NUMBERS);
        if let [3, model, answer, count, words @ ..] = line.as_slice() {
            assert!(*model < 2 && *answer < 2);
            assert_eq!(usize::try_from(*count), Ok(words.len()));
            assert!(words.iter().all(|word| u32::try_from(*word).is_ok()));
        }
    }
}

#[test]
fn the_events_are_those_of_the_histories_each_history_once() {
    let proposed = events("orders");
    let all = events("histories");
    let mut rest = all.iter();
    assert!(proposed
        .iter()
        .all(|history| rest.any(|other| other == history)));
}

#[test]
fn no_order_is_proposed_twice_for_a_history_and_a_model() {
    let mut proposed = BTreeSet::new();
    for line in lines() {
        match line.as_slice() {
            [0, ..] => proposed.clear(),
            [3, model, _, words @ ..] => assert!(proposed.insert((*model, words.to_vec()))),
            _ => {}
        }
    }
}

fn lines() -> Vec<Vec<i64>> {
    let numbers = |line: &str| line.split(' ').map(|word| word.parse().unwrap()).collect();
    data::text("orders").lines().map(numbers).collect()
}

/// The lines of each history's start and events.
fn events(name: &str) -> Vec<String> {
    let mut histories: Vec<String> = Vec::new();
    for line in data::text(name).lines() {
        if line.starts_with("0 ") {
            histories.push(String::new());
        }
        if !line.starts_with("3 ") {
            let history = histories.last_mut().expect("a start");
            *history += line;
            *history += "\n";
        }
    }
    histories
}
