//! The exported call itself, with its numbers and bytes.

/// The bytes of an answer.
pub const ANSWER: usize = 79;

/// What the call returns when it has written an answer.
pub const ANSWERED: u32 = 0;

/// What the call returns when the buffer has room for less than [`ANSWER`] bytes; nothing was written.
pub const SHORT_BUFFER: u32 = 10;

/// What the call returns when the model's number is not 0 or 1; nothing was written.
pub const UNKNOWN_MODEL: u32 = 11;

#[link(name = "kilteshva", kind = "static")]
extern "C" {
    fn kilteshva_judge(
        file: *const u8,
        file_len: usize,
        model: u32,
        budget: u64,
        answer: *mut u8,
        answer_len: usize,
    ) -> u32;
}

/// Judges a corpus file: [`ANSWERED`], and the first [`ANSWER`] bytes of the buffer are the answer; or
/// [`SHORT_BUFFER`]; or [`UNKNOWN_MODEL`]. The rest of the buffer keeps its contents.
///
/// Most callers want [`judge`](crate::judge), which takes the bytes apart.
///
/// | bytes | what they say |
/// |---|---|
/// | 0 | 0 Order, 1 No order, 2 Undecided, 3 Invalid, 4 file refused |
/// | 1 | the refusal's number, or 0 |
/// | 2 | the length of the order |
/// | 3 to 10 | attempts, little-endian |
/// | 11 to 14 | place, little-endian |
/// | 15 to 78 | the order's thread numbers, 255 where unused |
pub fn judge(file: &[u8], model: u32, budget: u64, answer: &mut [u8]) -> u32 {
    // SAFETY: the function reads `file` and writes `answer`, each within the length given with it; they don't
    // overlap. It keeps neither, has no state of its own, and asks nothing else of its caller.
    unsafe {
        kilteshva_judge(
            file.as_ptr(),
            file.len(),
            model,
            budget,
            answer.as_mut_ptr(),
            answer.len(),
        )
    }
}
