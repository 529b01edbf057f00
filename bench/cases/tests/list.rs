//! The list that `replay` reads, `crates/replay/data/files.txt`.

mod lines;

use lines::{lines, text, ANSWER};
use std::process::Command;

/// The most that the list may have: bytes, and numbers in a line.
const BYTES: usize = 1_200_000;
const NUMBERS: usize = 1_000;

/// The longest file and the longest buffer, for which `replay` has room.
const FILE: usize = 70_000;
const ROOM: usize = 100;

/// The most attempts that a search makes.
const ATTEMPTS: u64 = 20_000;

#[test]
fn the_list_is_what_the_program_prints() {
    let cases = Command::new(env!("CARGO_BIN_EXE_cases"))
        .output()
        .expect("the program");
    assert!(cases.status.success());
    assert!(
        cases.stdout == text().as_bytes(),
        "the list differs: bench/README.md says how it is made anew"
    );
}

#[test]
fn there_are_three_thousand_calls_in_short_lines() {
    let text = text();
    assert!(3000 <= lines().len() && text.len() <= BYTES);
    assert!(text.lines().all(|line| line.split(' ').count() <= NUMBERS));
    for line in lines() {
        assert!(line.file.len() <= FILE && line.room <= ROOM);
        assert!(line.answer.is_empty() || line.attempts() <= ATTEMPTS);
    }
}

#[test]
fn a_call_is_refused_exactly_if_it_has_no_room_or_names_no_model() {
    for line in lines() {
        let due = match line.model {
            _ if line.room < ANSWER => 10,
            0 | 1 => 0,
            _ => 11,
        };
        assert_eq!(line.result, due);
    }
}

#[test]
fn no_more_attempts_are_made_than_the_budget_has_and_undecided_makes_them_all() {
    for line in lines() {
        match line.verdict() {
            Some(0 | 1) => assert!(line.attempts() <= line.budget),
            Some(2) => assert_eq!(line.attempts(), line.budget),
            Some(_) => assert_eq!(line.attempts(), 0),
            None => {}
        }
    }
}
