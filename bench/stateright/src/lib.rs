//! The semantics module of stateright 0.31.0, its seven files unchanged (SHA256SUMS beside src/).

// They stay as published, whatever the lints of a later toolchain say of them.
#[allow(warnings, clippy::all)]
pub mod semantics;
