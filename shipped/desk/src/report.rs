//! What the command prints: a line for each file and model, and a summary.

mod json;
mod text;

use crate::arguments::Options;
use crate::judging::{Came, Listener, Task};
use crate::outcome::{Kept, Outcome};
use crate::output::print;
use crate::progress::Progress;
use crate::stop::{Stop, Why};
use crate::tally::{Demands, Tally};
use crate::watching::Watch;
use std::io::{self, IsTerminal};
use std::path::Path;
use std::sync::Arc;
use std::time::Duration;

pub struct Report<'a> {
    options: &'a Options,
    task: Arc<Task>,
    colours: bool,
    progress: Progress,
    tally: Tally,
    watch: Watch,
    /// Which entries of the manifest were met.
    met: Vec<bool>,
    /// Lines that are still to be printed: many at once are printed as quickly as one.
    waiting: String,
}

/// What a summary tells of the run as a whole.
struct End<'a> {
    tally: &'a Tally,
    options: &'a Options,
    interrupted: Option<Why>,
    took: Duration,
}

impl<'a> Report<'a> {
    pub fn new(options: &'a Options, task: Arc<Task>) -> Self {
        let is_set = |name| std::env::var_os(name).is_some_and(|value| !value.is_empty());
        let is_dumb = std::env::var_os("TERM").is_some_and(|term| term == "dumb");
        let entries = task.manifest.as_ref().map_or(0, |manifest| manifest.len());
        Report {
            options,
            colours: io::stdout().is_terminal() && !is_set("NO_COLOR") && !is_dumb,
            progress: Progress::new(task.files.len(), !options.quiet && !is_dumb),
            tally: Tally::new(Demands {
                expected: options.expected,
                no_skips: options.no_skips,
                allow_empty: options.allow_empty,
            }),
            watch: Watch::new(options.settle),
            met: vec![false; entries],
            waiting: String::new(),
            task,
        }
    }

    /// Ends the report of a run that was judged to its end, or broken off, and hands the exit status on.
    pub fn end(mut self, mut interrupted: Option<Why>, stop: &Stop) -> u8 {
        self.print_waiting();
        if interrupted.is_none() {
            interrupted = self.watch.wait(stop);
        }
        let task = self.task.clone();
        for at in self.watch.changed(|at| &task.files[at].path) {
            let why = "it changed after it was judged: it may still be being written";
            self.tell_kept(at, &task.files[at].path, Kept::Changed, why);
        }
        if let (Some(manifest), None) = (&task.manifest, interrupted) {
            let met = std::mem::take(&mut self.met);
            for (at, path) in manifest.others(&met).enumerate() {
                let why = "the manifest names it, and it is not among the files judged";
                self.tell_kept(task.files.len() + at, path, Kept::Missing, why);
            }
        }
        self.tally.interrupted = interrupted.is_some();
        self.summarise(interrupted, stop.elapsed());
        self.print_waiting();
        self.progress.clear();
        self.tally.status()
    }

    fn tell_kept(&mut self, at: usize, path: &Path, kept: Kept, why: &str) {
        self.tally.add_kept(at, kept);
        let outcome = Outcome::Kept(kept, why.to_string());
        self.add_lines(path, &outcome);
    }

    /// What is said of the run as a whole; a quiet one says only what no line has said.
    fn summarise(&mut self, interrupted: Option<Why>, took: Duration) {
        let is_told = interrupted.is_none() && self.tally.missed().is_none();
        if self.options.quiet && is_told {
            return;
        }
        let end = End {
            tally: &self.tally,
            options: self.options,
            interrupted,
            took,
        };
        let lines = match self.options.json {
            true => json::summary(&end),
            false => text::summary(&end, self.colours),
        };
        self.add(&lines);
    }

    fn add(&mut self, line: &str) {
        self.waiting += line;
        self.waiting.push('\n');
    }

    fn print_waiting(&mut self) {
        if !self.waiting.is_empty() {
            self.progress.clear();
            print(&self.waiting);
            self.waiting.clear();
        }
    }

    /// Adds the lines on a file, without those that were not asked for.
    fn add_lines(&mut self, path: &Path, outcome: &Outcome) {
        match outcome {
            Outcome::Judged(judged) => {
                for (model, answer, took) in &judged.answers {
                    let verdict = judged.verdict(answer, self.options.allow_empty);
                    if self.options.quiet && verdict.is_green() {
                        continue;
                    }
                    let told = Told {
                        path,
                        judged,
                        verdict,
                        model: *model,
                        answer,
                        took: *took,
                    };
                    self.add(&match self.options.json {
                        true => json::judged(&told, self.options.budget),
                        false => text::judged(&told, self.colours),
                    });
                }
            }
            Outcome::Kept(kept, why) => self.add_other(path, kept.name(), why),
            Outcome::Skipped(why, _) => self.add_other(path, "Skipped", why),
        }
    }

    fn add_other(&mut self, path: &Path, name: &str, why: &str) {
        self.add(&match self.options.json {
            true => json::other(path, name, why),
            false => text::other(path, name, why, self.colours),
        });
    }
}

/// An answer on a file, and what a line says of it.
struct Told<'a> {
    path: &'a Path,
    judged: &'a crate::outcome::Judged,
    verdict: crate::outcome::Verdict,
    model: kilteshva::Model,
    answer: &'a kilteshva::Answer,
    took: Duration,
}

impl Listener for Report<'_> {
    fn came(&mut self, at: usize, came: Came) {
        self.tally.add(at, &came.outcome);
        if let Some(entry) = came.entry {
            self.met[entry] = true;
        }
        if let Outcome::Judged(judged) = &came.outcome {
            if let Some(stamp) = judged.stamp {
                self.watch.add(at, stamp);
            }
        }
        let task = self.task.clone();
        self.add_lines(&task.files[at].path, &came.outcome);
    }

    fn progress(&mut self, done: usize) {
        self.print_waiting();
        self.progress.show(done);
    }
}
