//! Reading numbers.

mod common;

use capture::{padded, shortest, signed, Random};
use common::bytes;
use reference::{value_of, Cursor};

/// What is read from these bytes, and how many were taken.
fn read(hex: &str) -> (Result<u32, u8>, usize) {
    let file = bytes(hex);
    let mut cursor = Cursor::new(&file, 0);
    (cursor.number(), cursor.at())
}

#[test]
fn seven_bits_to_a_byte_lowest_group_first() {
    assert_eq!(read("00"), (Ok(0), 1));
    assert_eq!(read("7f"), (Ok(127), 1));
    assert_eq!(read("80 01"), (Ok(128), 2));
    assert_eq!(read("ac 02"), (Ok(300), 2));
    assert_eq!(read("ff ff ff ff 0f"), (Ok(u32::MAX), 5));
}

#[test]
fn what_follows_a_number_is_not_taken() {
    assert_eq!(read("05 ff"), (Ok(5), 1));
}

#[test]
fn padding_is_accepted_up_to_five_bytes() {
    assert_eq!(read("81 00"), (Ok(1), 2));
    assert_eq!(read("81 80 80 80 00"), (Ok(1), 5));
    assert_eq!(read("81 80 80 80 80 00").0, Err(23));
}

#[test]
fn a_fifth_byte_above_15_is_too_large_at_once() {
    assert_eq!(read("80 80 80 80 10").0, Err(23));
    assert_eq!(read("80 80 80 80 80").0, Err(23));
    assert_eq!(read("ff ff ff ff ff").0, Err(23));
}

#[test]
fn a_number_is_cut_off_by_the_end() {
    for cut in ["", "80", "80 80", "80 80 80", "ff ff ff ff"] {
        assert_eq!(read(cut).0, Err(22));
    }
}

#[test]
fn every_number_written_is_read_again() {
    let mut random = Random::new(1);
    for _ in 0..10_000 {
        let number = random.draw() as u32 >> random.below(32);
        let width = 1 + random.below(5);
        for written in [shortest(number), padded(number, width)] {
            let mut cursor = Cursor::new(&written, 0);
            assert_eq!(cursor.number(), Ok(number));
            assert!(cursor.is_at_end());
        }
    }
}

#[test]
fn signed_values_come_back() {
    let mut random = Random::new(2);
    for value in [0, 1, -1, i32::MAX, i32::MIN] {
        assert_eq!(value_of(signed(value)), value);
    }
    for _ in 0..10_000 {
        let value = random.draw() as i32;
        assert_eq!(value_of(signed(value)), value);
    }
}
