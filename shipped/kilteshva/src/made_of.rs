//! Which library and which sources a program was made from.

use std::str;

const DIGITS: usize = 64;

extern "C" {
    /// The digits and a NUL.
    static kilteshva_made_of: [u8; DIGITS + 1];
}

/// The digest of what the linked library was made from: 64 hex digits, the same for the same proved sources
/// and the same Rattle kit. `shipped/library --digest` prints that of the library to be linked.
pub fn library_digest() -> &'static str {
    // SAFETY: the library defines it with this size, in memory that nothing writes to.
    let bytes: &'static [u8; DIGITS + 1] = unsafe { &kilteshva_made_of };
    // Text of no length is no digest, and no caller takes it for one.
    str::from_utf8(&bytes[..DIGITS]).unwrap_or_default()
}

/// The digest of the Rust sources, where `./judge` built the program: 64 hex digits. None in a program that
/// was built by hand.
pub const PROGRAM_DIGEST: Option<&str> = option_env!("KILTESHVA_PROGRAM");
