//! What ends a run before all is judged: a signal, or the time that was given for it.

use std::fmt;
use std::sync::atomic::{AtomicI32, Ordering};
use std::time::{Duration, Instant};

const SIGNALS: [(i32, &str); 3] = [(1, "SIGHUP"), (2, "SIGINT"), (15, "SIGTERM")];

/// The handlers that `signal` knows by number: the usual end, and none.
const DEFAULT: usize = 0;
const IGNORED: usize = 1;

/// The signal that came, or 0.
static CAUGHT: AtomicI32 = AtomicI32::new(0);

extern "C" {
    fn signal(number: i32, handler: usize) -> usize;
}

/// Why a run ended early.
#[derive(Clone, Copy, Debug, PartialEq)]
pub enum Why {
    Signal(&'static str),
    Time(Duration),
    /// A judging thread is gone.
    Lost,
}

impl fmt::Display for Why {
    fn fmt(&self, f: &mut fmt::Formatter) -> fmt::Result {
        match self {
            Why::Signal(name) => write!(f, "by {name}"),
            Why::Time(limit) => {
                write!(f, "after {} s, the time given for the run", limit.as_secs())
            }
            Why::Lost => f.write_str("since a judging thread has ended"),
        }
    }
}

/// Notes signals instead of dying of them, but for those that whoever started the command has turned off.
pub fn catch_signals() {
    for (number, _) in SIGNALS {
        // SAFETY: the handler does nothing but store a number and call `signal`, which handlers may.
        unsafe {
            if signal(number, caught as extern "C" fn(i32) as usize) == IGNORED {
                signal(number, IGNORED);
            }
        }
    }
}

extern "C" fn caught(number: i32) {
    CAUGHT.store(number, Ordering::SeqCst);
    // The second one ends the command at once, should the first find it waiting for its report to be read.
    // SAFETY: handlers may call `signal`.
    unsafe { signal(number, DEFAULT) };
}

/// When a run has to end.
pub struct Stop {
    begun: Instant,
    limit: Option<Duration>,
}

impl Stop {
    /// Of a run that begins now.
    pub fn new(limit: Option<Duration>) -> Self {
        let begun = Instant::now();
        Stop { begun, limit }
    }

    /// Whether it has to end now.
    pub fn asked(&self) -> Option<Why> {
        let number = CAUGHT.load(Ordering::SeqCst);
        if let Some((_, name)) = SIGNALS.iter().find(|(known, _)| *known == number) {
            return Some(Why::Signal(name));
        }
        let limit = self.limit.filter(|limit| self.begun.elapsed() >= *limit);
        limit.map(Why::Time)
    }

    /// How long the run has lasted.
    pub fn elapsed(&self) -> Duration {
        self.begun.elapsed()
    }
}
