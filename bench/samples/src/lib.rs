//! The corpus files of the folder `samples` at the top of the repository, with what each is judged to be.

mod damaged;
mod readme;
mod register;
mod stack;
mod write_once;

use capture::Capture;
use std::fmt;
use std::path::{Path, PathBuf};

pub use readme::readme;

/// A corpus file and what it shows.
pub struct Sample {
    /// Its path within the folder.
    pub path: &'static str,
    /// One line.
    pub shows: &'static str,
    pub bytes: Vec<u8>,
    pub linearizable: Verdict,
    pub sequential: Verdict,
}

/// What a sample is judged to be.
#[derive(Clone, Copy, Debug, PartialEq)]
pub enum Verdict {
    /// The threads of the first order.
    Order(&'static [u8]),
    NoOrder,
    /// The refusal's number and the place of the event.
    Invalid(u8, u32),
    Refused(u8, u32),
}

impl fmt::Display for Verdict {
    fn fmt(&self, f: &mut fmt::Formatter) -> fmt::Result {
        match self {
            Verdict::Order(threads) => {
                let threads: Vec<String> = threads.iter().map(u8::to_string).collect();
                write!(f, "Order {}", threads.join(" "))
            }
            Verdict::NoOrder => f.write_str("No order"),
            Verdict::Invalid(number, place) => write!(f, "Invalid, {number} at byte {place}"),
            Verdict::Refused(number, place) => write!(f, "Refused, {number} at byte {place}"),
        }
    }
}

/// All samples, in the order of their paths.
pub fn all() -> Vec<Sample> {
    let mut all = [
        damaged::samples(),
        register::samples(),
        stack::samples(),
        write_once::samples(),
    ]
    .into_iter()
    .flatten()
    .collect::<Vec<_>>();
    all.sort_by_key(|sample| sample.path);
    all
}

/// Where the samples stand.
pub fn folder() -> PathBuf {
    Path::new(env!("CARGO_MANIFEST_DIR")).join("../../samples")
}

/// A sample of which both models say the same.
fn agreed(path: &'static str, shows: &'static str, capture: Capture, verdict: Verdict) -> Sample {
    Sample {
        path,
        shows,
        bytes: capture.bytes(),
        linearizable: verdict,
        sequential: verdict,
    }
}
