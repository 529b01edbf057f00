//! What the list `files.txt` has to have: each refusal and each verdict, each limit from both sides.

mod lines;

use lines::{lines, Line, ANSWER};
use std::collections::{BTreeMap, BTreeSet};

const MODELS: [u32; 2] = [0, 1];
const FAMILIES: [u8; 3] = [0, 1, 2];

fn assert_count(least: usize, what: &str, is: impl Fn(&Line) -> bool) {
    let count = lines().iter().filter(|line| is(line)).count();
    assert!(least <= count, "{what}: {count} calls only, not {least}");
}

/// The number of the refusal, where the file is refused.
fn refusal(line: &Line) -> Option<u8> {
    line.answer.get(1).copied().filter(|number| *number != 0)
}

/// The object's number, where the file is long enough to have one.
fn family_of(line: &Line) -> Option<u8> {
    line.file.get(4).copied()
}

/// Whether there is a call that is answered, on this file by this model, with an answer that begins so.
fn has(file: &[u8], model: u32, begin: &[u8]) -> bool {
    let is = |line: &Line| {
        (&line.file[..], line.model) == (file, model) && line.answer.starts_with(begin)
    };
    lines().iter().any(is)
}

#[test]
fn each_model_meets_each_refusal_of_a_file() {
    for model in MODELS {
        for number in [2, 4, 5, 6, 20, 21, 22, 23, 24, 25] {
            let is = |line: &Line| line.model == model && refusal(line) == Some(number);
            assert_count(8, &format!("{number}"), is);
        }
    }
}

#[test]
fn each_family_meets_each_refusal_of_an_event() {
    for family in FAMILIES {
        for number in [2, 4, 5, 6, 22, 23, 24] {
            let is = |line: &Line| {
                let place = || u32::from_le_bytes(line.answer[11..15].try_into().unwrap());
                family_of(line) == Some(family) && refusal(line) == Some(number) && place() != 0
            };
            assert_count(5, &format!("{family} {number}"), is);
        }
    }
}

#[test]
fn each_family_and_model_has_each_verdict() {
    for family in FAMILIES {
        for model in MODELS {
            for verdict in [0, 1, 2, 3, 4] {
                let is = |line: &Line| {
                    (family_of(line), line.model) == (Some(family), model)
                        && line.verdict() == Some(verdict)
                };
                assert_count(25, &format!("{family} {model} {verdict}"), is);
            }
        }
    }
}

#[test]
fn orders_have_up_to_64_places() {
    for (least, length) in [(20, 0), (20, 1), (5, 32), (5, 64)] {
        let is = |line: &Line| line.verdict() == Some(0) && line.answer[2] >= length;
        assert_count(least, &format!("{length}"), is);
    }
}

/// Of a search that needs some attempts the budgets 0, one short, exact, one more and the largest are met, and one
/// that is large as a whole but small in its lowest 32 bits.
#[test]
fn budgets_just_cover_a_search_or_just_do_not() {
    let mut needs = BTreeMap::new();
    for line in lines() {
        if matches!(line.verdict(), Some(0 | 1)) && line.attempts() > 0 {
            needs.insert((line.file.clone(), line.model), line.attempts());
        }
    }
    let needed = |line: &Line| needs.get(&(line.file.clone(), line.model)).copied();
    let judged =
        |line: &Line, verdict: [u8; 2]| line.verdict().is_some_and(|v| verdict.contains(&v));
    let decided = |line: &Line| judged(line, [0, 1]);
    let undecided = |line: &Line| judged(line, [2, 2]);
    for model in MODELS {
        let of = |line: &Line| needed(line).filter(|_| line.model == model);
        assert_count(100, "exact", |line| {
            of(line) == Some(line.budget) && decided(line)
        });
        assert_count(100, "one short", |line| {
            of(line) == line.budget.checked_add(1) && undecided(line)
        });
        assert_count(100, "none", |line| {
            of(line).is_some() && line.budget == 0 && undecided(line)
        });
        assert_count(20, "one more", |line| {
            of(line).is_some_and(|need| need + 1 == line.budget) && decided(line)
        });
        assert_count(20, "the largest", |line| {
            of(line).is_some() && line.budget == u64::MAX && decided(line)
        });
        assert_count(5, "low bits", |line| {
            let low = line.budget & u64::from(u32::MAX);
            of(line).is_some_and(|need| low < need && need < line.budget) && decided(line)
        });
    }
}

#[test]
fn short_buffers_come_before_unknown_models() {
    let unknown = [2, 3, 255, 256, 257, 65_536, 65_537, 1 << 31, u32::MAX];
    for model in MODELS.into_iter().chain(unknown) {
        for (room, due) in [
            (0, 10),
            (1, 10),
            (ANSWER - 1, 10),
            (ANSWER, 11),
            (ANSWER + 1, 11),
        ] {
            let due = if model < 2 && due == 11 { 0 } else { due };
            let is = |line: &Line| (line.model, line.room, line.result) == (model, room, due);
            assert_count(1, &format!("{model} {room}"), is);
        }
    }
    assert_count(100, "longer buffers", |line| {
        line.result == 0 && line.room > ANSWER
    });
}

#[test]
fn a_capture_of_each_family_is_cut_at_each_byte() {
    for model in MODELS {
        let is = |line: &&Line| line.model == model && line.result == 0;
        let answered = lines().iter().filter(is);
        let files: BTreeSet<&[u8]> = answered.map(|line| line.file.as_slice()).collect();
        for family in FAMILIES {
            let is_cut = |file: &&&[u8]| {
                let cuts = |at: usize| files.contains(&file[..at]);
                file.get(4) == Some(&family) && (0..file.len()).all(cuts)
            };
            let longest = files.iter().filter(is_cut).map(|file| file.len()).max();
            assert!(longest >= Some(30), "{model} {family}: {longest:?}");
        }
    }
}

#[test]
fn numbers_are_padded_up_to_five_bytes_and_too_long() {
    for family in FAMILIES {
        for zeros in 1..=4 {
            let padding = [vec![128; zeros - 1], vec![0]].concat();
            let is_padded = |bytes: &[u8]| bytes[0] >= 128 && bytes[1..] == padding;
            let is = |line: &Line| {
                let loads = matches!(line.answer[..], [0..=2, 0, ..]);
                let mut parts = line.file.windows(zeros + 1);
                family_of(line) == Some(family) && loads && parts.any(is_padded)
            };
            assert_count(5, &format!("{family} {zeros}"), is);
        }
        let is = |line: &Line| family_of(line) == Some(family) && refusal(line) == Some(23);
        assert_count(30, "too long", is);
    }
}

#[test]
fn files_are_of_every_size_about_the_largest() {
    let zeros = |bytes: &[u8], length: usize| {
        let mut file = bytes.to_vec();
        file.resize(length, 0);
        file
    };
    for model in MODELS {
        assert!(has(&[], model, &[4, 21]), "the empty file");
        assert!(has(&zeros(&[], 65_536), model, &[4, 21]));
        assert!(has(&zeros(&[], 65_537), model, &[4, 20]), "20 before 21");
        for family in FAMILIES {
            for (length, due) in [(65_535, 0), (65_536, 0), (65_537, 20), (70_000, 20)] {
                let is = |line: &Line| {
                    let found = (line.model, family_of(line), line.file.len());
                    let number = refusal(line).unwrap_or(0);
                    found == (model, Some(family), length) && (number == 20) == (due == 20)
                };
                assert_count(2, &format!("{model} {family} {length}"), is);
            }
        }
    }
}

#[test]
fn trace_13_is_there() {
    let file = |value: &[u8]| [b"RAW1\0", value].concat();
    for model in MODELS {
        assert!(has(&file(&[0x01]), model, &[0, 0]), "-1");
        assert!(
            has(&file(&[0xff, 0xff, 0xff, 0xff, 0x0f]), model, &[0, 0]),
            "-2147483648"
        );
        assert!(has(&file(&[0xff, 0xff, 0xff, 0xff, 0x10]), model, &[4, 23]));
    }
}

#[test]
fn trace_14_is_there() {
    let file = [
        0x52, 0x41, 0x57, 0x31, 0x00, 0x82, 0x01, 0x00, 0x01, 0x02, 0x00, 0x84, 0x01, 0x03, 0x00,
    ];
    let mut answer = [0xff; ANSWER];
    answer[..17].copy_from_slice(&[0, 0, 2, 2, 0, 0, 0, 0, 0, 0, 0, 0, 0, 0, 0, 0, 1]);
    for model in MODELS {
        assert!(has(&file, model, &answer));
    }
}
