//! The numbers of a corpus file.

/// Where reading stands in a file.
pub struct Cursor<'a> {
    file: &'a [u8],
    at: usize,
}

/// A number that can't be read, by its refusal.
const CUT_OFF: u8 = 22;
const TOO_LARGE: u8 = 23;

impl<'a> Cursor<'a> {
    pub fn new(file: &'a [u8], at: usize) -> Self {
        Cursor { file, at }
    }

    pub fn at(&self) -> usize {
        self.at
    }

    pub fn is_at_end(&self) -> bool {
        self.at >= self.file.len()
    }

    /// The next number, or why there is none. "Seven bits to a byte, lowest group first, top bit set when
    /// more follow; at most five bytes. A fifth byte above 15 gives 23 at once."
    pub fn number(&mut self) -> Result<u32, u8> {
        let mut number = 0;
        for place in 0..5 {
            let byte = *self.file.get(self.at).ok_or(CUT_OFF)?;
            self.at += 1;
            if place == 4 && byte > 15 {
                return Err(TOO_LARGE);
            }
            number += u32::from(byte % 128) * 128_u32.pow(place);
            if byte < 128 {
                return Ok(number);
            }
        }
        unreachable!("a fifth byte of at most 15 is a number's last")
    }

    /// The next number as a signed value.
    pub fn value(&mut self) -> Result<i32, u8> {
        self.number().map(value_of)
    }
}

/// The signed value that is sent as this number: "2v when v ≥ 0 and -2v - 1 when negative".
pub fn value_of(number: u32) -> i32 {
    let half = i64::from(number / 2);
    let value = match number % 2 {
        0 => half,
        _ => -half - 1,
    };
    i32::try_from(value).expect("half of 32 bits")
}
