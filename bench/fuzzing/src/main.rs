//! Writes the seeds of a fuzz run: `fuzzing FOLDER`. They are the samples and some files of each kind that a
//! differential run makes, each in several calls; those of long files stand in a folder of their own.

use capture::Random;
use cases::files::Kind;
use std::fs;
use std::io;
use std::path::Path;
use std::process::ExitCode;

/// Files of each kind.
const OF_EACH: usize = 8;

/// A longer file goes to the folder `long`.
const SHORT: usize = 4_000;

/// Attempts: enough for most of these files.
const BUDGET: u32 = 1_000;

/// The bytes that choose the model and the buffer's length: either model, no model, a short buffer, and both of these.
const CALLS: [(u8, u8); 5] = [(0, 0), (1, 0), (255, 0), (0, 255), (255, 255)];

fn main() -> ExitCode {
    let Some(folder) = std::env::args_os().nth(1) else {
        eprintln!("usage: fuzzing FOLDER");
        return ExitCode::from(2);
    };
    match write(Path::new(&folder)) {
        Ok(()) => ExitCode::SUCCESS,
        Err(error) => {
            eprintln!("fuzzing: {error}");
            ExitCode::from(2)
        }
    }
}

fn write(folder: &Path) -> io::Result<()> {
    for within in ["short", "long"] {
        fs::create_dir_all(folder.join(within))?;
    }
    for (number, file) in files().iter().enumerate() {
        let within = match file.len() <= SHORT {
            true => "short",
            false => "long",
        };
        for (call, (model, room)) in CALLS.into_iter().enumerate() {
            let path = folder.join(within).join(format!("{number}-{call}"));
            fs::write(path, seed(model, room, file))?;
        }
    }
    Ok(())
}

fn files() -> Vec<Vec<u8>> {
    let mut files: Vec<Vec<u8>> = samples::all().into_iter().map(|s| s.bytes).collect();
    let mut random = Random::new(1);
    for kind in Kind::ALL {
        for _ in 0..OF_EACH {
            let mut some = kind.files(&mut random);
            files.push(some.swap_remove(random.below(some.len())));
        }
    }
    files
}

/// An input as harness.c takes it apart.
fn seed(model: u8, room: u8, file: &[u8]) -> Vec<u8> {
    let [low, middle, high, _] = BUDGET.to_le_bytes();
    [&[model, low, middle, high, room], file].concat()
}
