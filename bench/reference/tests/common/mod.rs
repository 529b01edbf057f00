//! Files written as bytes in hex.

/// The bytes of these pairs of hex digits.
pub fn bytes(hex: &str) -> Vec<u8> {
    let byte = |pair| u8::from_str_radix(pair, 16).expect("a pair of hex digits");
    hex.split_whitespace().map(byte).collect()
}

/// A file of the register that starts at 65, with these events.
#[allow(dead_code, reason = "not every test file has registers")]
pub fn register(events: &str) -> Vec<u8> {
    bytes(&format!("52 41 57 31 00 82 01 {events}"))
}
