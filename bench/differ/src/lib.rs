//! Differential runs: what the exported call answers, held to stateright, unchanged, and to the reference.
//!
//! A run makes files of every kind from a seed and chooses how each is judged ([`cases`]), calls the judge on a
//! thread with a small stack ([`judge`]) and compares ([`compare`]).

pub mod compare;
pub mod judge;
pub mod run;
pub mod tally;
