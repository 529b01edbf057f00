//! The lists in `crates/replay/data`.

pub const DATA: &str = concat!(env!("CARGO_MANIFEST_DIR"), "/../../crates/replay/data/");

pub fn text(name: &str) -> String {
    std::fs::read_to_string(format!("{DATA}{name}.txt")).expect("the list")
}
