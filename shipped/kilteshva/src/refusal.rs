//! Why a file was not judged to its end.

use std::fmt;

/// Why the judge stopped at some place of a file: document 01's refusals, as far as a file can meet them.
///
/// The numbers that are missing are given elsewhere: 1, 3 and 7 to 9 to events, steps and records that no
/// file can make, 10 and 11 to calls that [`judge`](crate::judge) doesn't make.
#[derive(Clone, Copy, Debug, Eq, Hash, Ord, PartialEq, PartialOrd)]
#[non_exhaustive]
#[repr(u8)]
pub enum Refusal {
    /// An event of a thread that doesn't exist: threads are 0 to 7.
    ThreadAbove7 = 2,
    /// A thread invoked an operation while its last one was in flight.
    SecondInvoke = 4,
    /// An operation returned on a thread that had none in flight.
    StrayReturn = 5,
    /// More than 64 operations.
    TooManyOperations = 6,
    /// The file is longer than 65,536 bytes.
    FileTooLong = 20,
    /// The file does not open with `RAW1`.
    NotACapture = 21,
    /// The file ends inside a number, or where one should stand.
    CutOff = 22,
    /// A number above 4,294,967,295, or of more than five bytes.
    NumberTooLarge = 23,
    /// A number that stands for no object, operation, return or flag.
    UnknownCode = 24,
    /// An initial stack of more than 32 values.
    InitialStackTooDeep = 25,
}

impl Refusal {
    /// Every refusal that a file can meet, by number.
    pub const ALL: [Refusal; 10] = [
        Refusal::ThreadAbove7,
        Refusal::SecondInvoke,
        Refusal::StrayReturn,
        Refusal::TooManyOperations,
        Refusal::FileTooLong,
        Refusal::NotACapture,
        Refusal::CutOff,
        Refusal::NumberTooLarge,
        Refusal::UnknownCode,
        Refusal::InitialStackTooDeep,
    ];

    /// Its number in document 01.
    pub fn number(self) -> u8 {
        self as u8
    }

    /// The refusal of this number, if a file can meet it.
    pub fn of_number(number: u8) -> Option<Refusal> {
        Refusal::ALL
            .into_iter()
            .find(|refusal| refusal.number() == number)
    }

    /// What it means, in plain words.
    pub fn meaning(self) -> &'static str {
        match self {
            Refusal::ThreadAbove7 => "the event names a thread above 7",
            Refusal::SecondInvoke => {
                "the thread invokes an operation while its last one is still in flight"
            }
            Refusal::StrayReturn => "the thread returns although it has no operation in flight",
            Refusal::TooManyOperations => {
                "the event would be the 65th operation, and 64 is the most"
            }
            Refusal::FileTooLong => "the file is longer than 65,536 bytes",
            Refusal::NotACapture => "the file does not open with the bytes RAW1",
            Refusal::CutOff => "the file ends where a number should go on",
            Refusal::NumberTooLarge => "a number is above 4,294,967,295 or longer than five bytes",
            Refusal::UnknownCode => "a number stands for no object, operation, return or flag",
            Refusal::InitialStackTooDeep => "the stack starts with more than 32 values",
        }
    }
}

impl fmt::Display for Refusal {
    /// The number and what it means.
    fn fmt(&self, f: &mut fmt::Formatter) -> fmt::Result {
        write!(f, "{}: {}", self.number(), self.meaning())
    }
}
