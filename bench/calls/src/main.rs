//! Times the exported call beside the Rust from the same bytes, and the command on whole folders.

mod called;
mod calls;
mod family;
mod files;
mod folder;
mod histories;
mod overlap;
mod random;
mod reader;
mod summary;
mod testers;
mod turns;

use std::path::Path;
use std::process::ExitCode;

fn main() -> ExitCode {
    let words: Vec<String> = std::env::args().skip(1).collect();
    let words: Vec<&str> = words.iter().map(String::as_str).collect();
    match words[..] {
        ["calls"] => calls::print(),
        ["folder", command, within] => folder::print(Path::new(command), Path::new(within)),
        _ => {
            eprintln!("usage: calls calls | calls folder COMMAND EMPTY-FOLDER");
            return ExitCode::FAILURE;
        }
    }
    ExitCode::SUCCESS
}
