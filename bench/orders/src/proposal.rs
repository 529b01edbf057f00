//! A proposed order and what is expected of it.

pub use crate::damage::NoReturn;
use crate::family::Family;

#[derive(Clone, Copy, Debug, Eq, Ord, PartialEq, PartialOrd)]
pub enum Kind {
    /// An order that the Rust found, for the model that it was found for.
    Found,
    /// The same, for the other model.
    FoundForTheOther,
    /// No places, where the Rust found another order or none.
    Empty,
    OfAnotherHistory,
    /// The completed operations in the order of their returns, or of their invocations.
    AsRecorded,
    /// Operations in some order, each with what the object gives there, whatever it returned.
    AsGiven,
    Swapped,
    Dropped,
    Doubled,
    /// The value that a completed operation returned, with this bit turned over.
    Value(u32),
    /// Another number of the return of a completed operation.
    Number,
    /// A value more or fewer in the return of a completed operation.
    Count,
    /// What another operation returned, in the place of a completed one.
    ReturnOfAnother,
    NoReturn(NoReturn),
    /// A place's thread replaced by this one, above 7.
    ThreadAbove(u32),
    /// A place's thread raised by this.
    ThreadRaised(u32),
    /// A place of this thread, above 7, put in.
    ThreadPutIn(u32),
    /// An in-flight operation after all others, with the return that the object gives there.
    PendingAtEnd,
    /// An in-flight operation put in elsewhere, with the return that the object gives there.
    PendingRight,
    /// An in-flight operation, put in elsewhere or there already, with another return.
    PendingWrong,
    /// This many places, more than 64.
    Longer(u32),
    /// This many words more than those of whole places.
    HalfPlace(u32),
    /// A legal order that is none of these.
    AnyLegal,
    EmptyToInvalid,
    /// An order that was legal before an event was refused.
    LegalToInvalid,
    /// The completed operations in the order of their returns, or of their invocations.
    AsRecordedToInvalid,
}

#[derive(Clone, Copy, Debug, Eq, Ord, PartialEq, PartialOrd)]
pub enum Size {
    Small,
    Large,
}

/// Whether an order is legal, by model; none where it is not asked.
pub type Answers = [Option<bool>; 2];

pub const NO: Answers = [Some(false); 2];

/// What is proposed for a history.
pub type Unanswered = (Kind, Vec<u32>);
pub type Answered = (Kind, Vec<u32>, Answers);

pub struct Proposal {
    /// The number of the history in the list.
    pub history: usize,
    pub family: Family,
    pub size: Size,
    pub kind: Kind,
    pub words: Vec<u32>,
    pub answers: Answers,
}
