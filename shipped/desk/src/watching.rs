//! Files that were judged, looked at once more before the run ends.
//!
//! A file that is still being written may stay as it is for the moment in which it is read. So one that was changed shortly
//! before is watched until it has been still for some time.

use crate::stop::{Stop, Why};
use kilteshva::file::Stamp;
use std::path::Path;
use std::thread::sleep;
use std::time::{Duration, Instant};

/// How long the run sleeps before it looks whether it has to end.
const PAUSE: Duration = Duration::from_millis(5);

pub struct Watch {
    settle: Duration,
    /// The files judged, by number, as they were read.
    judged: Vec<(usize, Stamp)>,
    /// When the last of those that were fresh has been still for long enough.
    until: Option<Instant>,
}

impl Watch {
    pub fn new(settle: Duration) -> Self {
        Watch {
            settle,
            judged: Vec::new(),
            until: None,
        }
    }

    /// A file was judged just now.
    pub fn add(&mut self, at: usize, stamp: Stamp) {
        self.judged.push((at, stamp));
        // By the machine's own clock from here on: a file's times may be another's.
        if stamp.age() < self.settle {
            self.until = Some(Instant::now() + self.settle);
        }
    }

    /// Waits until every file has been still for long enough, or the run has to end.
    pub fn wait(&self, stop: &Stop) -> Option<Why> {
        while self.until.is_some_and(|until| Instant::now() < until) {
            if let Some(why) = stop.asked() {
                return Some(why);
            }
            sleep(PAUSE);
        }
        None
    }

    /// The numbers of the files that are no longer as they were read; a path is told by its number.
    pub fn changed<'a>(&self, path: impl Fn(usize) -> &'a Path) -> Vec<usize> {
        let has_changed = |(at, stamp): &&(usize, Stamp)| Stamp::of(path(*at)).ok() != Some(*stamp);
        let changed = self.judged.iter().filter(has_changed);
        changed.map(|(at, _)| *at).collect()
    }
}
