//! What the judge says of a file.

use crate::raw::ANSWER;
use crate::Refusal;
use std::fmt;

/// What the judge says of a file. Only [`Answer::Order`] is green.
#[derive(Clone, Debug, Eq, Hash, PartialEq)]
#[non_exhaustive]
pub enum Answer {
    /// Some one-at-a-time order explains the capture.
    Order {
        /// The first such order: whose operation comes next, at most 64 of them. The k-th time that a thread
        /// stands here, its k-th operation is meant. An operation without an answer may stand in it or not.
        threads: Vec<u8>,
        /// Attempts that the search made.
        attempts: u64,
    },
    /// No order explains the capture.
    NoOrder {
        /// Attempts that the search made.
        attempts: u64,
    },
    /// The search needs more attempts than the budget.
    Undecided {
        /// Attempts that the search made: the budget.
        attempts: u64,
    },
    /// The capture contradicts itself: a second invoke, or a stray return.
    Invalid {
        /// Which of the two.
        refusal: Refusal,
        /// Where the event starts, in bytes from the start of the file.
        place: u32,
    },
    /// The file is no capture that can be judged.
    Refused {
        /// Why.
        refusal: Refusal,
        /// Where the event starts, in bytes from the start of the file; 0 for the header or the whole file.
        place: u32,
    },
    /// The library gave bytes that it promises never to give. The proved library doesn't; a `libhost.a` that
    /// is another version, or no judge at all, may. It is an answer and not a panic, so that a long run can
    /// name the file and go on; it is never green.
    Unknown(Unknown),
}

/// Bytes outside the library's promise, as they came.
#[derive(Clone, Debug, Eq, Hash, PartialEq)]
pub struct Unknown {
    /// What the exported call returned.
    pub result: u32,
    /// What it left in the buffer, which held zeros before.
    pub bytes: [u8; ANSWER],
}

impl Answer {
    /// Whether the capture is green: some order explains it.
    pub fn is_order(&self) -> bool {
        matches!(self, Answer::Order { .. })
    }

    /// The verdict in one or two words.
    pub fn verdict(&self) -> &'static str {
        match self {
            Answer::Order { .. } => "Order",
            Answer::NoOrder { .. } => "No order",
            Answer::Undecided { .. } => "Undecided",
            Answer::Invalid { .. } => "Invalid",
            Answer::Refused { .. } => "Refused",
            Answer::Unknown(_) => "Unknown",
        }
    }

    /// What the verdict means for this file, in plain words: of a refusal the number, where and why.
    pub fn explanation(&self) -> String {
        match self {
            Answer::Order { threads, attempts } if threads.is_empty() => {
                format!("no operation has to be placed ({})", counted(*attempts))
            }
            Answer::Order { threads, attempts } => {
                let threads: Vec<String> = threads.iter().map(u8::to_string).collect();
                format!("threads {} ({})", threads.join(" "), counted(*attempts))
            }
            Answer::NoOrder { attempts } => {
                format!(
                    "no one-at-a-time order explains it ({})",
                    counted(*attempts)
                )
            }
            Answer::Undecided { attempts } => {
                format!(
                    "a budget of {} does not cover the search",
                    counted(*attempts)
                )
            }
            Answer::Invalid { refusal, place } | Answer::Refused { refusal, place } => {
                let place = match place {
                    0 => "in the header".to_string(),
                    _ => format!("in the event at byte {place}"),
                };
                format!(
                    "refusal {} {place}: {}",
                    refusal.number(),
                    refusal.meaning()
                )
            }
            Answer::Unknown(unknown) => format!(
                "libhost.a is not the library that this program was made for (it returned {})",
                unknown.result
            ),
        }
    }
}

impl fmt::Display for Answer {
    /// The verdict and its explanation.
    fn fmt(&self, f: &mut fmt::Formatter) -> fmt::Result {
        write!(f, "{}: {}", self.verdict(), self.explanation())
    }
}

fn counted(attempts: u64) -> String {
    match attempts {
        1 => "1 attempt".to_string(),
        _ => format!("{attempts} attempts"),
    }
}
