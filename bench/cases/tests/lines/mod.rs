//! The list `crates/replay/data/files.txt`, line by line.

use std::sync::OnceLock;

pub const ANSWER: usize = 79;

/// A call, and what it must come to.
#[derive(Clone, Debug)]
pub struct Line {
    pub model: u32,
    pub budget: u64,
    pub room: usize,
    pub file: Vec<u8>,
    pub result: u32,
    /// All bytes of the answer; none where the call is refused.
    pub answer: Vec<u8>,
}

pub fn text() -> String {
    let path = concat!(
        env!("CARGO_MANIFEST_DIR"),
        "/../../crates/replay/data/files.txt"
    );
    std::fs::read_to_string(path).expect("the list")
}

pub fn lines() -> &'static [Line] {
    static LINES: OnceLock<Vec<Line>> = OnceLock::new();
    LINES.get_or_init(|| text().lines().map(read).collect())
}

/// MODEL HIGH LOW ROOM Z n f1 … fn R k a1 … ak
fn read(line: &str) -> Line {
    let numbers: Vec<u64> = line.split(' ').map(|word| word.parse().unwrap()).collect();
    let [model, high, low, room, zeros, ref rest @ ..] = numbers[..] else {
        panic!("a line of {} numbers", numbers.len());
    };
    assert!(high <= u32::MAX.into() && low <= u32::MAX.into());
    let (mut file, rest) = counted(rest);
    file.resize(file.len() + zeros as usize, 0);
    let (mut answer, end) = counted(&rest[1..]);
    assert!(end.is_empty());
    match rest[0] {
        0 => answer.resize(ANSWER, 255),
        _ => assert!(answer.is_empty()),
    }
    Line {
        model: u32::try_from(model).expect("32 bits"),
        budget: high << 32 | low,
        room: room as usize,
        file,
        result: rest[0] as u32,
        answer,
    }
}

/// n b1 … bn, and what follows.
fn counted(numbers: &[u64]) -> (Vec<u8>, &[u64]) {
    let (bytes, rest) = numbers[1..].split_at(numbers[0] as usize);
    let byte = |number: &u64| u8::try_from(*number).expect("a byte");
    (bytes.iter().map(byte).collect(), rest)
}

impl Line {
    /// The verdict, where the call is answered.
    pub fn verdict(&self) -> Option<u8> {
        self.answer.first().copied()
    }

    pub fn attempts(&self) -> u64 {
        let bytes = self.answer[3..11].try_into().expect("eight bytes");
        u64::from_le_bytes(bytes)
    }
}
