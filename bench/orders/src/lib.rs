//! Orders proposed for histories, each with whether it is legal.
//!
//! The answers follow from the definition alone: every arrangement of a history's operations is tried, and those of
//! which each sentence of the definition holds are kept (`legal`, `every`). Nothing here searches for an order, and
//! nothing is shared with the Rust crate or with the oracle.

pub mod choice;
mod damage;
pub mod every;
pub mod family;
pub mod history;
pub mod large;
pub mod legal;
pub mod list;
pub mod named;
pub mod object;
pub mod place;
pub mod proposal;
pub mod record;
pub mod refused;
pub mod small;
pub mod step;
