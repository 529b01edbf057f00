//! Running the command.

#![allow(dead_code, reason = "each test file takes what it needs")]

use std::fs;
use std::path::{Path, PathBuf};
use std::process::{Command, Output};

/// What came of a run.
pub struct Ran {
    pub status: i32,
    pub stdout: String,
    pub stderr: String,
}

impl From<Output> for Ran {
    fn from(output: Output) -> Self {
        let text = |bytes| String::from_utf8(bytes).expect("text");
        Ran {
            status: output.status.code().expect("an exit status"),
            stdout: text(output.stdout),
            stderr: text(output.stderr),
        }
    }
}

impl Ran {
    pub fn lines(&self) -> Vec<&str> {
        self.stdout.lines().collect()
    }

    /// The lines on files: those before the summary, which an empty line precedes.
    pub fn file_lines(&self) -> Vec<&str> {
        let lines = self.stdout.lines();
        lines.take_while(|line| !line.is_empty()).collect()
    }

    /// The words that those lines begin with, and the paths behind them.
    pub fn verdicts(&self) -> Vec<(&str, &str)> {
        let lines = self.file_lines().into_iter();
        lines
            .map(|line| {
                let (verdict, rest) = line.split_at(10);
                (
                    verdict.trim_end(),
                    rest[1..].split(": ").next().unwrap_or(""),
                )
            })
            .collect()
    }

    pub fn last_line(&self) -> &str {
        self.stdout.lines().last().unwrap_or("")
    }
}

/// The command, to be run in a folder. The files of tests are fresh; it waits for none of them to have been still for a
/// while, unless that is tested.
pub fn command(folder: &Path, words: &[&str]) -> Command {
    let mut command = Command::new(env!("CARGO_BIN_EXE_kilteshva"));
    command.current_dir(folder);
    if !words.iter().any(|word| word.starts_with("--settle")) {
        command.arg("--settle=0");
    }
    command.args(words);
    command
}

/// Runs the command in a folder with these words.
pub fn run_in(folder: &Path, words: &[&str]) -> Ran {
    command(folder, words).output().expect("the command").into()
}

/// Runs the command at the top of the repository, where the folder `samples` is.
pub fn run(words: &[&str]) -> Ran {
    let top = samples::folder().join("..");
    run_in(&top, words)
}

/// An empty folder of this name for a test to fill.
pub fn folder(name: &str) -> PathBuf {
    let folder = Path::new(env!("CARGO_TARGET_TMPDIR")).join(name);
    if folder.exists() {
        fs::remove_dir_all(&folder).expect("a folder of an earlier run");
    }
    fs::create_dir_all(&folder).expect("a folder");
    folder
}

/// A Read of the register's 0, one of 1, which nobody wrote, and nothing at all.
pub const GREEN: &[u8] = b"RAW1\x00\x00\x00\x01\x01\x01\x00";
pub const RED: &[u8] = b"RAW1\x00\x00\x00\x01\x01\x01\x02";
pub const EMPTY: &[u8] = b"RAW1\x00\x00";

/// Eight overlapping Writes so many times over, and a Read of what nobody wrote: three times take some hundred thousand
/// attempts and more to see that there is no order, five times more than any budget here.
pub fn slow(times: usize) -> Vec<u8> {
    let mut slow = b"RAW1\x00\x00".to_vec();
    for _ in 0..times {
        slow.extend((0..8).flat_map(|thread| [2 * thread, 0, 2 * thread]));
        slow.extend((0..8).flat_map(|thread| [2 * thread + 1, 0]));
    }
    slow.extend([0, 1, 1, 1, 127]);
    slow
}

/// Writes a file in a folder, and the folders that it needs.
pub fn write(folder: &Path, name: &str, bytes: &[u8]) {
    let path = folder.join(name);
    let within = path.parent().expect("a folder");
    fs::create_dir_all(within).expect("folders");
    fs::write(path, bytes).expect("a file");
}
