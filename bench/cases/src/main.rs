//! Prints the list of calls with what they must come to.

use std::process::ExitCode;

fn main() -> ExitCode {
    match cases::list::text() {
        Ok(text) => {
            print!("{text}");
            ExitCode::SUCCESS
        }
        Err(disagreement) => {
            eprintln!("the reference and stateright disagree: {disagreement}");
            ExitCode::FAILURE
        }
    }
}
