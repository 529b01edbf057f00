//! How far a long run has come, on a terminal.

use std::io::{self, IsTerminal, Write};
use std::time::{Duration, Instant};

/// Shorter runs show nothing.
const LONG: Duration = Duration::from_secs(1);

/// The line is written anew at most this often.
const PAUSE: Duration = Duration::from_millis(100);

pub struct Progress {
    wanted: bool,
    files: usize,
    begun: Instant,
    /// When the line was last written.
    written: Option<Instant>,
    /// Whether it stands on the terminal now.
    stands: bool,
}

impl Progress {
    /// Of a run over so many files that begins now.
    pub fn new(files: usize, wanted: bool) -> Self {
        Progress {
            wanted: wanted && io::stderr().is_terminal(),
            files,
            begun: Instant::now(),
            written: None,
            stands: false,
        }
    }

    /// Shows that so many files are done.
    pub fn show(&mut self, done: usize) {
        let elapsed = self.begun.elapsed();
        let is_due = self
            .written
            .is_none_or(|written| written.elapsed() >= PAUSE);
        if self.wanted && elapsed >= LONG && is_due {
            write(&format!("\r\x1b[K{}", line(done, self.files, elapsed)));
            self.written = Some(Instant::now());
            self.stands = true;
        }
    }

    /// Takes the line away, so that others can be written.
    pub fn clear(&mut self) {
        if self.stands {
            write("\r\x1b[K");
            self.stands = false;
        }
    }
}

fn line(done: usize, files: usize, elapsed: Duration) -> String {
    let rate = done as f64 / elapsed.as_secs_f64();
    format!("{done} / {files} files, {rate:.0} a second")
}

/// Whoever can't be shown progress still gets the report.
fn write(text: &str) {
    let mut stderr = io::stderr();
    let _ = stderr
        .write_all(text.as_bytes())
        .and_then(|()| stderr.flush());
}

#[cfg(test)]
mod tests {
    use super::*;

    #[test]
    fn a_line_has_files_and_rate() {
        let line = line(500, 2000, Duration::from_millis(2500));
        assert_eq!(line, "500 / 2000 files, 200 a second");
    }
}
