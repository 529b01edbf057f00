//! What came of a file.

use crate::digest::Digest;
use kilteshva::file::Stamp;
use kilteshva::{Answer, Counts, Model};
use std::time::Duration;

pub enum Outcome {
    Judged(Judged),
    /// Something kept it from being judged.
    Kept(Kept, String),
    /// It is no capture, and why.
    Skipped(String, Skipped),
}

/// Why a file was kept from being judged.
#[derive(Clone, Copy, Debug, Eq, Ord, PartialEq, PartialOrd)]
pub enum Kept {
    /// It can't be read, or is no file.
    Unreadable,
    /// It changed while it was read, or since.
    Changed,
    /// It is not what the manifest says.
    Differs,
    /// The manifest does not name it.
    Unlisted,
    /// The manifest names it, and it is not among the files judged.
    Missing,
}

impl Kept {
    pub const ALL: [Kept; 5] = [
        Kept::Unreadable,
        Kept::Changed,
        Kept::Differs,
        Kept::Unlisted,
        Kept::Missing,
    ];

    pub fn name(self) -> &'static str {
        match self {
            Kept::Unreadable => "Unreadable",
            Kept::Changed => "Changed",
            Kept::Differs => "Differs",
            Kept::Unlisted => "Unlisted",
            Kept::Missing => "Missing",
        }
    }
}

/// What stands where a capture could, and is none.
#[derive(Clone, Copy, Debug, PartialEq)]
pub enum Skipped {
    /// By its name; it might be one all the same.
    ByName,
    /// It is one of the run's own files.
    Own,
}

/// A file that the judge has answered.
pub struct Judged {
    /// The answer for each model asked for, and how long it took.
    pub answers: Vec<(Model, Answer, Duration)>,
    /// How much there was to judge.
    pub counts: Option<Counts>,
    pub size: u64,
    /// Of its bytes, where it was asked for and they were all read.
    pub digest: Option<Digest>,
    /// The file as it was read; standard input has none.
    pub stamp: Option<Stamp>,
}

/// What a line says.
#[derive(Clone, Copy, Debug, Eq, Ord, PartialEq, PartialOrd)]
pub enum Verdict {
    Order,
    NoOrder,
    Undecided,
    Invalid,
    Refused,
    /// An order of nothing: no operation was completed.
    Empty,
    /// Answers that the proved library doesn't give.
    Unknown,
}

impl Verdict {
    pub const ALL: [Verdict; 7] = [
        Verdict::Order,
        Verdict::NoOrder,
        Verdict::Undecided,
        Verdict::Invalid,
        Verdict::Refused,
        Verdict::Empty,
        Verdict::Unknown,
    ];

    pub fn name(self) -> &'static str {
        match self {
            Verdict::Order => "Order",
            Verdict::NoOrder => "No order",
            Verdict::Undecided => "Undecided",
            Verdict::Invalid => "Invalid",
            Verdict::Refused => "Refused",
            Verdict::Empty => "Empty",
            Verdict::Unknown => "Unknown",
        }
    }

    pub fn is_green(self) -> bool {
        self == Verdict::Order
    }
}

impl Judged {
    /// What is said of one of its answers.
    pub fn verdict(&self, answer: &Answer, allow_empty: bool) -> Verdict {
        let Some(counts) = self.counts else {
            return Verdict::Unknown;
        };
        match answer {
            // An order holds every completed operation, and is empty if there is none.
            Answer::Order { threads, .. } if threads.is_empty() != (counts.completed == 0) => {
                Verdict::Unknown
            }
            Answer::Order { threads, .. } if threads.is_empty() && !allow_empty => Verdict::Empty,
            Answer::Order { .. } => Verdict::Order,
            Answer::NoOrder { .. } => Verdict::NoOrder,
            Answer::Undecided { .. } => Verdict::Undecided,
            Answer::Invalid { .. } => Verdict::Invalid,
            Answer::Refused { .. } => Verdict::Refused,
            _ => Verdict::Unknown,
        }
    }
}
