//! The C header says what this crate says: each constant, each refusal's number and words, and where an answer's
//! fields are.

use kilteshva::{judge, raw, Answer, Model, Refusal, LONGEST_FILE};
use std::collections::BTreeMap;
use std::fs;

const PATH: &str = concat!(env!("CARGO_MANIFEST_DIR"), "/../c/kilteshva.h");

/// Where the fields are, by the constants' names without their prefix.
const FIELDS: [&str; 6] = [
    "AT_VERDICT",
    "AT_REFUSAL",
    "AT_LENGTH",
    "AT_ATTEMPTS",
    "AT_PLACE",
    "AT_THREADS",
];

/// The verdicts likewise, in the order of [`Answer`].
const VERDICTS: [&str; 5] = ["ORDER", "NO_ORDER", "UNDECIDED", "INVALID", "REFUSED"];

fn header() -> String {
    fs::read_to_string(PATH).expect(PATH)
}

/// Every constant of the header, without its prefix.
fn constants() -> BTreeMap<String, u64> {
    let mut constants = BTreeMap::new();
    for line in header().lines() {
        let Some((before, after)) = line.split_once(" = ") else {
            continue;
        };
        let Some((_, name)) = before.split_once("KILTESHVA_") else {
            continue;
        };
        let number = after.trim_end_matches([',', ' ', '}', ';']);
        let earlier = constants.insert(name.to_string(), number.parse().expect(line));
        assert_eq!(earlier, None, "{name} stands there twice");
    }
    constants
}

/// A name as C has it: `ThreadAbove7` is `THREAD_ABOVE_7`.
fn in_c(name: &str) -> String {
    let mut shown = String::new();
    for letter in name.chars() {
        if !shown.is_empty() && !letter.is_lowercase() {
            shown.push('_');
        }
        shown.push(letter.to_ascii_uppercase());
    }
    shown
}

fn name_of(refusal: Refusal) -> String {
    in_c(&format!("{refusal:?}"))
}

#[test]
fn every_constant_has_the_crates_number() {
    let mut said = constants();
    let mut expected = BTreeMap::from([
        ("ANSWER".to_string(), raw::ANSWER as u64),
        ("ANSWERED".to_string(), raw::ANSWERED.into()),
        ("SHORT_BUFFER".to_string(), raw::SHORT_BUFFER.into()),
        ("UNKNOWN_MODEL".to_string(), raw::UNKNOWN_MODEL.into()),
        ("LONGEST_FILE".to_string(), LONGEST_FILE as u64),
    ]);
    for model in [Model::Sequential, Model::Linearizable] {
        expected.insert(in_c(&format!("{model:?}")), model.number().into());
    }
    for refusal in Refusal::ALL {
        expected.insert(name_of(refusal), refusal.number().into());
    }
    // What is left is read from answers below.
    for name in [FIELDS.as_slice(), &VERDICTS, &["OPERATIONS", "UNUSED"]].concat() {
        assert!(said.remove(name).is_some(), "{name} is missing");
    }
    assert_eq!(said, expected);
}

#[test]
fn every_refusal_has_the_crates_words() {
    let header = header();
    for refusal in Refusal::ALL {
        let name = name_of(refusal);
        let line = format!("case KILTESHVA_{name}: return \"{}\";", refusal.meaning());
        assert!(header.contains(&line), "no line {line}");
    }
    let lines = header.matches(": return \"").count();
    assert_eq!(lines, Refusal::ALL.len());
}

/// An answer's bytes, read where the header says that the fields are, by what it says that they mean.
fn read(bytes: &[u8; raw::ANSWER]) -> Answer {
    let constants = constants();
    let of = |name: &str| constants[name] as usize;
    let field = |name: &str, size: usize| {
        let field = &bytes[of(name)..][..size];
        let highest_first = field.iter().rev();
        highest_first.fold(0, |sum: u64, byte| sum << 8 | u64::from(*byte))
    };
    let (verdict, length) = (field("AT_VERDICT", 1), field("AT_LENGTH", 1) as usize);
    let attempts = field("AT_ATTEMPTS", 8);
    let place = field("AT_PLACE", 4) as u32;
    let refusal = Refusal::of_number(field("AT_REFUSAL", 1) as u8);
    let (threads, rest) = bytes[of("AT_THREADS")..].split_at(length);
    assert_eq!(threads.len() + rest.len(), of("OPERATIONS"));
    assert!(rest.iter().all(|byte| usize::from(*byte) == of("UNUSED")));

    let threads = threads.to_vec();
    match VERDICTS.iter().position(|name| constants[*name] == verdict) {
        Some(0) => Answer::Order { threads, attempts },
        Some(1) => Answer::NoOrder { attempts },
        Some(2) => Answer::Undecided { attempts },
        Some(3) => Answer::Invalid {
            refusal: refusal.expect("a refusal"),
            place,
        },
        Some(_) => Answer::Refused {
            refusal: refusal.expect("a refusal"),
            place,
        },
        None => panic!("verdict {verdict} is none of the header's"),
    }
}

#[test]
fn an_answer_read_by_the_header_is_the_crates() {
    // A register that starts at 0.
    let register = |events: &[u8]| [b"RAW1\x00\x00", events].concat();
    let many = [0, 1, 1, 1, 0].repeat(65);
    // All eight threads write 0 at once, and thread 0 then reads 99.
    let writes = (0..8).flat_map(|thread| [2 * thread, 0, 0]);
    let returns = (0..8).flat_map(|thread| [2 * thread + 1, 0]);
    let unwritten: Vec<u8> = writes.chain(returns).chain([0, 1, 1, 1, 198, 1]).collect();
    let files = [
        register(&[]),
        register(&many[..320]),
        register(&many),
        register(&unwritten),
        register(&[0, 1, 1, 1, 0, 2, 1, 2, 1]),
        register(&[0, 1, 1, 1, 0, 3, 0]),
        register(&[0]),
        b"dose limit".to_vec(),
    ];
    let mut verdicts = Vec::new();
    for file in &files {
        for budget in [300, u64::MAX] {
            let mut bytes = [0; raw::ANSWER];
            let result = raw::judge(file, Model::Linearizable.number(), budget, &mut bytes);
            assert_eq!(result, raw::ANSWERED);
            let answer = judge(file, Model::Linearizable, budget);
            assert_eq!(read(&bytes), answer);
            verdicts.push(answer.verdict());
        }
    }
    for verdict in ["Order", "No order", "Undecided", "Invalid", "Refused"] {
        assert!(verdicts.contains(&verdict), "no file is {verdict}");
    }
}
