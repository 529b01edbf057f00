//! The command on folders of small captures.

use crate::files::{self, Written};
use crate::histories::{histories, SEED};
use crate::turns::{least, nanoseconds};
use kilteshva::{judge, Model};
use stateright::semantics::register::Register;
use std::fs;
use std::hint::black_box;
use std::path::Path;
use std::process::Command;

const TURNS: usize = 7;

const SIZES: [usize; 5] = [1_250, 2_500, 5_000, 10_000, 20_000];

const OPERATIONS: usize = 12;

/// The command's own budget.
const BUDGET: u64 = 1_000_000_000;

/// What is asked of the command: its word for the models, and these.
const ASKED: [(&str, &[Model]); 2] = [
    ("linearizable", &[Model::Linearizable]),
    ("both", &[Model::Linearizable, Model::Sequential]),
];

/// Runs the command on folders that are made within this one.
pub fn print(command: &Path, within: &Path) {
    let files = files(SIZES[SIZES.len() - 1]);
    for size in SIZES {
        let folder = within.join(size.to_string());
        fill(&folder, &files[..size]);
        let run = Run {
            command,
            folder: &folder,
            report: &within.join("report"),
            files: &files[..size],
        };
        for (asked, models) in ASKED {
            run.print(asked, models);
        }
    }
}

/// So many files of both families, in turn.
fn files(count: usize) -> Vec<Vec<u8>> {
    let half = count / 2;
    let registers = written::<Register<i32>>(half);
    let stacks = written::<Vec<i32>>(half);
    let pairs = registers.into_iter().zip(stacks);
    pairs
        .flat_map(|(register, stack)| [register, stack])
        .collect()
}

fn written<F: Written>(count: usize) -> Vec<Vec<u8>> {
    let histories = histories::<F>(count, OPERATIONS, SEED);
    histories.iter().map(files::bytes).collect()
}

fn fill(folder: &Path, files: &[Vec<u8>]) {
    fs::create_dir(folder).expect("a folder of its own");
    for (number, file) in files.iter().enumerate() {
        let path = folder.join(format!("{number:05}.raw"));
        fs::write(path, file).expect("room for a file");
    }
}

/// A run of the command on a folder.
struct Run<'a> {
    command: &'a Path,
    folder: &'a Path,
    report: &'a Path,
    files: &'a [Vec<u8>],
}

impl Run<'_> {
    fn print(&self, asked: &str, models: &[Model]) {
        self.see_that_all_is_judged(asked);
        let [alone, one, two] = least(TURNS, || {
            [
                nanoseconds(1, || self.judging_alone(models)),
                nanoseconds(1, || self.status(asked, 1)),
                nanoseconds(1, || self.status(asked, 2)),
            ]
        });
        let count = self.files.len();
        println!("{count} files, {asked}:");
        println!("  1 job:  {}", self.rated(one));
        println!("  2 jobs: {}", self.rated(two));
        println!("  judging alone, one by one: {}", self.rated(alone));
    }

    /// Of the pairs of a register and a stack every second is broken, which linearizability tells.
    fn see_that_all_is_judged(&self, asked: &str) {
        let count = self.files.len();
        let broken = count / 4 * 2;
        let sum = format!(
            "linearizable: {} Order, {broken} No order, 0 Undecided",
            count - broken
        );
        let status = self.status(asked, 2);
        let report = fs::read_to_string(self.report).expect("a report");
        assert!(status == 1 && report.contains(&sum), "no {sum}");
    }

    /// Runs the command, which writes its report to a file: its exit status.
    fn status(&self, asked: &str, jobs: usize) -> u64 {
        let report = fs::File::create(self.report).expect("a place for the report");
        let mut command = Command::new(self.command);
        command.args(["--model", asked, "--jobs", &jobs.to_string()]);
        let status = command.arg(self.folder).stdout(report).status();
        let code = status.expect("the command").code();
        code.expect("an exit status") as u64
    }

    /// The calls that the command makes, on bytes that are there.
    fn judging_alone(&self, models: &[Model]) -> u64 {
        for file in self.files {
            for model in models {
                black_box(judge(black_box(file), *model, BUDGET));
            }
        }
        0
    }

    fn rated(&self, nanoseconds: f64) -> String {
        let count = self.files.len() as f64;
        format!(
            "{:.1} ms, {:.2} µs a file, {:.0} files a second",
            nanoseconds / 1e6,
            nanoseconds / 1e3 / count,
            count / (nanoseconds / 1e9)
        )
    }
}
