//! Judges captures: whether some one-at-a-time order explains what eight clients saw.
//!
//! A capture is a corpus file: an object (register, write-once register or stack) with what it held at the
//! start, then each call and each answer of up to eight threads, in the order of time. [`judge`] takes the
//! bytes of such a file and says whether an order of the operations explains all answers:
//!
//! ```
//! use kilteshva::{judge, Answer, Model};
//!
//! // A register starts at 65. Thread 0 invokes Read and gets no answer; thread 1 writes 66.
//! let file = b"RAW1\x00\x82\x01\x00\x01\x02\x00\x84\x01\x03\x00";
//! match judge(file, Model::Linearizable, 1_000_000) {
//!     Answer::Order { threads, .. } => assert_eq!(threads, [0, 1]),
//!     red => panic!("not green: {red}"),
//! }
//! ```
//!
//! The judge is a proved library, `libkilteshva.a`, and this crate is a door to it with no judgement of its own.
//! Green is [`Answer::Order`] and nothing else ([`Answer::is_order`]): a capture that was refused, that is
//! invalid or that the budget left undecided is not green.
//!
//! Any bytes get an answer: nothing is asked of the caller, and no call panics. A call is a function of its
//! arguments: it keeps nothing, so any number of threads may call at once. It needs less than 256 KiB of
//! stack. Its time grows with the attempts that the search makes, which the budget bounds.
//!
//! # Building
//!
//! The build script looks for `libkilteshva.a` in the folder that the environment variable `KILTESHVA_LIBRARY`
//! names (an absolute path), or else in `target/library` at the top of this repository, where
//! `shipped/library` writes it. [`library_digest`] tells which library was linked.

#![warn(missing_docs)]

mod answer;
mod bytes;
mod counts;
pub mod file;
mod made_of;
mod model;
pub mod raw;
mod refusal;

pub use answer::{Answer, Unknown};
pub use counts::{count, Counts};
pub use file::judge_file;
pub use made_of::{library_digest, PROGRAM_DIGEST};
pub use model::{Model, UnknownModel};
pub use refusal::Refusal;

/// The most bytes that a corpus file has. A longer one is refused whatever it holds
/// ([`Refusal::FileTooLong`]), so nobody needs to read more than one byte beyond.
pub const LONGEST_FILE: usize = 65_536;

/// Judges the bytes of a corpus file under a model, with at most `budget` attempts at placing an operation.
///
/// A larger budget never changes an [`Answer::Order`] or an [`Answer::NoOrder`]; it can only turn an
/// [`Answer::Undecided`] into one of them. For `k` threads and `n` operations, k + k² + … + kⁿ attempts
/// always suffice; most captures need far fewer.
pub fn judge(file: &[u8], model: Model, budget: u64) -> Answer {
    let mut bytes = [0; raw::ANSWER];
    let result = raw::judge(file, model.number(), budget, &mut bytes);
    bytes::answer(result, bytes)
}
