//! An answer's bytes, taken apart: those that the library promises, and no others.

use crate::raw::{ANSWER, ANSWERED};
use crate::{Answer, Refusal, Unknown};

/// A thread number that is not used.
const UNUSED: u8 = 255;

/// What the exported call's result and bytes say.
pub fn answer(result: u32, bytes: [u8; ANSWER]) -> Answer {
    let promised = said(&bytes).filter(|_| result == ANSWERED);
    promised.unwrap_or(Answer::Unknown(Unknown { result, bytes }))
}

/// What the bytes say, if each field is one that the others allow.
fn said(bytes: &[u8; ANSWER]) -> Option<Answer> {
    let [verdict, number, length] = *bytes.first_chunk()?;
    let attempts = u64::from_le_bytes(bytes[3..11].try_into().ok()?);
    let place = u32::from_le_bytes(bytes[11..15].try_into().ok()?);
    let (threads, rest) = bytes[15..].split_at_checked(length.into())?;
    if threads.iter().any(|thread| *thread > 7) || rest.iter().any(|unused| *unused != UNUSED) {
        return None;
    }
    match (verdict, number, length, attempts, place) {
        (0, 0, _, attempts, 0) => {
            let threads = threads.to_vec();
            Some(Answer::Order { threads, attempts })
        }
        (1, 0, 0, attempts, 0) => Some(Answer::NoOrder { attempts }),
        (2, 0, 0, attempts, 0) => Some(Answer::Undecided { attempts }),
        (3, 4 | 5, 0, 0, place) => {
            let refusal = Refusal::of_number(number)?;
            Some(Answer::Invalid { refusal, place })
        }
        (4, number, 0, 0, place) if number != 4 && number != 5 => {
            let refusal = Refusal::of_number(number)?;
            Some(Answer::Refused { refusal, place })
        }
        _ => None,
    }
}

#[cfg(test)]
mod tests {
    use super::*;

    /// An answer's bytes; the thread numbers that are not given are unused.
    fn bytes(fields: [u8; 3], attempts: u64, place: u32, threads: &[u8]) -> [u8; ANSWER] {
        let mut bytes = [UNUSED; ANSWER];
        bytes[..3].copy_from_slice(&fields);
        bytes[3..11].copy_from_slice(&attempts.to_le_bytes());
        bytes[11..15].copy_from_slice(&place.to_le_bytes());
        bytes[15..][..threads.len()].copy_from_slice(threads);
        bytes
    }

    /// An answer of each kind, with its bytes.
    fn promised() -> Vec<([u8; ANSWER], Answer)> {
        let attempts = 0x0102_0304_0506_0708;
        let place = 0x0001_0203;
        let full: Vec<u8> = (0..64).map(|place| place % 8).collect();
        let order = |threads: &[u8]| Answer::Order {
            threads: threads.to_vec(),
            attempts,
        };
        let mut promised = vec![
            (bytes([0, 0, 0], attempts, 0, &[]), order(&[])),
            (bytes([0, 0, 2], attempts, 0, &[7, 0]), order(&[7, 0])),
            (bytes([0, 0, 64], attempts, 0, &full), order(&full)),
            (
                bytes([1, 0, 0], attempts, 0, &[]),
                Answer::NoOrder { attempts },
            ),
            (
                bytes([2, 0, 0], attempts, 0, &[]),
                Answer::Undecided { attempts },
            ),
        ];
        for refusal in Refusal::ALL {
            let invalid = matches!(refusal, Refusal::SecondInvoke | Refusal::StrayReturn);
            promised.push(if invalid {
                let answer = Answer::Invalid { refusal, place };
                (bytes([3, refusal.number(), 0], 0, place, &[]), answer)
            } else {
                let answer = Answer::Refused { refusal, place };
                (bytes([4, refusal.number(), 0], 0, place, &[]), answer)
            });
        }
        promised
    }

    fn is_unknown(result: u32, bytes: [u8; ANSWER]) -> bool {
        answer(result, bytes) == Answer::Unknown(Unknown { result, bytes })
    }

    #[test]
    fn promised_bytes_are_taken_apart() {
        for (bytes, expected) in promised() {
            assert_eq!(answer(ANSWERED, bytes), expected);
        }
    }

    #[test]
    fn no_bytes_count_with_another_result() {
        for (bytes, _) in promised() {
            assert!([1, 10, 11, u32::MAX]
                .iter()
                .all(|result| is_unknown(*result, bytes)));
        }
    }

    #[test]
    fn fields_that_contradict_each_other_are_unknown() {
        let refused = [
            bytes([5, 0, 0], 0, 0, &[]),
            bytes([0, 4, 0], 0, 0, &[]),
            bytes([0, 0, 0], 0, 9, &[]),
            bytes([0, 0, 1], 1, 0, &[]),
            bytes([0, 0, 1], 1, 0, &[0, 1]),
            bytes([0, 0, 1], 1, 0, &[8]),
            bytes([0, 0, 65], 65, 0, &[0; 64]),
            bytes([1, 0, 1], 1, 0, &[0]),
            bytes([1, 0, 0], 1, 0, &[0]),
            bytes([2, 6, 0], 1, 0, &[]),
            bytes([3, 0, 0], 0, 0, &[]),
            bytes([3, 6, 0], 0, 9, &[]),
            bytes([3, 4, 0], 1, 9, &[]),
            bytes([4, 0, 0], 0, 9, &[]),
            bytes([4, 4, 0], 0, 9, &[]),
            bytes([4, 9, 0], 0, 9, &[]),
            bytes([4, 24, 0], 1, 9, &[]),
            [0; ANSWER],
            [UNUSED; ANSWER],
        ];
        assert!(refused.iter().all(|bytes| is_unknown(ANSWERED, *bytes)));
    }
}
