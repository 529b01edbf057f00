//! A list that `replay` reads, in `crates/replay/data`, named as the oracle's command that prints it.

use std::process::Command;

const DATA: &str = concat!(env!("CARGO_MANIFEST_DIR"), "/../../crates/replay/data/");

pub fn text(name: &str) -> String {
    std::fs::read_to_string(format!("{DATA}{name}.txt")).expect("the list")
}

/// The list as lines of numbers.
pub fn lines(name: &str) -> Vec<Vec<i64>> {
    let numbers = |line: &str| line.split(' ').map(|word| word.parse().unwrap()).collect();
    text(name).lines().map(numbers).collect()
}

pub fn assert_is_what_the_oracle_prints(name: &str) {
    let oracle = Command::new(env!("CARGO_BIN_EXE_oracle"))
        .arg(name)
        .output()
        .expect("the oracle");
    assert!(oracle.status.success());
    assert!(
        oracle.stdout == text(name).as_bytes(),
        "the list differs: bench/README.md says how it is made anew"
    );
}
