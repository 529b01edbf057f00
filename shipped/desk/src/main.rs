//! The release desk's command: judges every capture of the files and folders given.

mod arguments;
mod digest;
mod finding;
mod judging;
mod manifest;
mod names;
mod outcome;
mod output;
mod progress;
mod report;
mod stop;
mod tally;
mod watching;

use arguments::{Asked, Options};
use judging::Task;
use manifest::Manifest;
use output::{complain, print};
use report::Report;
use std::process::ExitCode;
use std::sync::Arc;
use stop::Stop;
use tally::{GREEN, TROUBLE};

fn main() -> ExitCode {
    asked().into()
}

/// Does what is asked, and hands the exit status on.
fn asked() -> u8 {
    if output::is_closed() {
        complain("standard output is closed: a report that nobody gets is not green");
        return TROUBLE;
    }
    match arguments::parse(std::env::args_os().skip(1)) {
        Ok(Asked::Help) => {
            print(include_str!("help.txt"));
            GREEN
        }
        Ok(Asked::Version) => {
            print(&version());
            GREEN
        }
        Ok(Asked::Judge(options)) => judge(&options),
        Err(message) => {
            complain(&format!("{message} (--help tells what can be asked)"));
            TROUBLE
        }
    }
}

/// The program's version, and what it and its library were made from.
fn version() -> String {
    let version = env!("CARGO_PKG_VERSION");
    let library = kilteshva::library_digest();
    let program = kilteshva::PROGRAM_DIGEST.unwrap_or("built by hand");
    format!("kilteshva {version}\nlibrary {library}\nprogram {program}\n")
}

fn judge(options: &Options) -> u8 {
    let stop = Stop::new(options.limit);
    stop::catch_signals();
    let manifest = match options.manifest.as_deref().map(Manifest::read) {
        Some(Err(message)) => {
            complain(&message);
            return TROUBLE;
        }
        Some(Ok(manifest)) => Some(manifest),
        None => None,
    };
    let (files, interrupted) = finding::find(&options.paths, &stop);
    let task = Arc::new(Task {
        files,
        models: options.models.clone(),
        budget: options.budget,
        manifest,
        digests: options.json,
        own_files: output::own_files(),
    });
    let mut report = Report::new(options, task.clone());
    if interrupted.is_some() {
        return report.end(interrupted, &stop);
    }
    match judging::judge_all(&task, options.jobs.get(), &stop, &mut report) {
        Ok(interrupted) => report.end(interrupted, &stop),
        Err(error) => {
            complain(&format!("no thread to judge on: {error}"));
            TROUBLE
        }
    }
}
