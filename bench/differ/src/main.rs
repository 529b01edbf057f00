//! Differential runs: `differ [--cases N] [--seed S]`. The last line is `N cases, 0 differ`, and the exit
//! status 0, if every answer is what it should be.

use differ::run::run;
use std::process::ExitCode;

const USAGE: &str = "usage: differ [--cases N] [--seed S]";

/// Differences that are printed; the others are only counted.
const PRINTED: usize = 5;

fn main() -> ExitCode {
    let Some((cases, seed)) = arguments(std::env::args().skip(1)) else {
        eprintln!("{USAGE}");
        return ExitCode::from(2);
    };
    let mut printed = 0;
    let tally = run(kilteshva::raw::judge, cases, seed, |difference| {
        if printed < PRINTED {
            println!("{difference}");
            printed += 1;
        }
    });
    println!("{tally}");
    match tally.differ {
        0 => ExitCode::SUCCESS,
        _ => ExitCode::FAILURE,
    }
}

/// How many cases, and the seed.
fn arguments(mut words: impl Iterator<Item = String>) -> Option<(u64, u64)> {
    let (mut cases, mut seed) = (20_000, 1);
    while let Some(word) = words.next() {
        let number = words.next()?.parse().ok()?;
        match word.as_str() {
            "--cases" => cases = number,
            "--seed" => seed = number,
            _ => return None,
        }
    }
    Some((cases, seed))
}
