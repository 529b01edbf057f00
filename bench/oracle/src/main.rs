//! Prints what stateright 0.31.0 answers on fixed, seeded inputs.

mod events;
mod family;
mod histories;
mod line;
mod objects;
mod testers;
mod values;

use std::process::ExitCode;

fn main() -> ExitCode {
    let arguments: Vec<String> = std::env::args().skip(1).collect();
    let words: Vec<&str> = arguments.iter().map(String::as_str).collect();
    match words.as_slice() {
        ["objects"] => print!("{}", objects::list()),
        ["events"] => print!("{}", events::list()),
        ["histories"] => print!("{}", histories::list()),
        _ => {
            eprintln!("usage: oracle objects | oracle events | oracle histories");
            return ExitCode::FAILURE;
        }
    }
    ExitCode::SUCCESS
}
