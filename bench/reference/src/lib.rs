//! A plain reading of document 01, sentence by sentence, to hold the judge to: for tests only.
//!
//! It shares no code with the port or with stateright, and prefers what is plain to what is fast. Real time
//! is kept as the moments of events, not as the notes of document 01; the search copies what it changes.

mod answer;
mod numbers;
mod object;
mod reading;
mod recording;
mod search;

pub use answer::{host_call, ANSWER};
pub use numbers::{value_of, Cursor};
pub use object::invoke;
pub use reading::{load, Loaded};
pub use recording::{Operation, Tester};
pub use search::{judge, Judged, Verdict};

/// What an order has to respect.
#[derive(Clone, Copy, Debug, PartialEq)]
pub enum Model {
    /// Each thread's own order.
    Sequential,
    /// Real time as well: what returned before another was invoked stands before it.
    Linearizable,
}

/// The sizes of document 01.
pub mod sizes {
    pub const THREADS: u32 = 8;
    pub const OPERATIONS: usize = 64;
    pub const INITIAL_STACK: u32 = 32;
    pub const FILE: usize = 65_536;
}
