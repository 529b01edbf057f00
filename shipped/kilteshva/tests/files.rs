//! Files judged by their paths, and how much of them was judged.

use kilteshva::file::{read, Stamp, Unread};
use kilteshva::{count, judge, judge_file, Answer, Model, Refusal};
use std::fs::{self, File};
use std::io::Write;
use std::path::{Path, PathBuf};
use std::process::Command;
use std::sync::atomic::{AtomicBool, Ordering};
use std::thread::{scope, sleep};
use std::time::{Duration, Instant};

/// A Read of the register's 0, answered.
const READ: &[u8] = b"RAW1\x00\x00\x00\x01\x01\x01\x00";

fn folder(name: &str) -> PathBuf {
    let folder = Path::new(env!("CARGO_TARGET_TMPDIR")).join(name);
    let _ = fs::remove_dir_all(&folder);
    fs::create_dir_all(&folder).expect("a folder");
    folder
}

fn written(name: &str, bytes: &[u8]) -> PathBuf {
    let path = folder(name).join("a.raw");
    fs::write(&path, bytes).expect("a file");
    path
}

#[test]
fn a_file_is_judged_as_its_bytes_are() {
    let path = written("judged", READ);
    for model in Model::ALL {
        let answer = judge_file(&path, model, 10).expect("an answer");
        assert_eq!(answer, judge(READ, model, 10));
        assert!(answer.is_order());
    }
}

#[test]
fn a_long_file_is_refused_and_not_read_to_its_end() {
    let path = written("long", READ);
    File::options()
        .write(true)
        .open(&path)
        .and_then(|file| file.set_len(1 << 33))
        .expect("a file with a hole");
    let refused = Answer::Refused {
        refusal: Refusal::FileTooLong,
        place: 0,
    };
    let answer = judge_file(&path, Model::Linearizable, 10);
    assert_eq!(answer.expect("an answer"), refused);
    let mut bytes = Vec::new();
    let stamp = read(&path, &mut bytes).expect("a file");
    assert_eq!((stamp.size(), bytes.len()), (1 << 33, 65_537));
}

#[test]
fn what_is_no_file_is_not_read() {
    let top = folder("none");
    let fifo = top.join("fifo");
    let made = Command::new("mkfifo").arg(&fifo).status();
    assert!(made.expect("mkfifo").success());
    for path in [fifo.as_path(), &top, Path::new("/dev/zero")] {
        let unread = judge_file(path, Model::Linearizable, 10);
        assert!(matches!(unread, Err(Unread::NotAFile)), "{unread:?}");
    }
    let unread = judge_file(top.join("none"), Model::Linearizable, 10);
    assert!(matches!(unread, Err(Unread::Io(_))), "{unread:?}");
}

/// Asks over and over, while somebody does something to a file, until it is seen to have changed: whether it was, in time.
fn is_told(ask: impl Fn() -> Result<(), Unread>, mut meddle: impl FnMut() + Send) -> bool {
    let ended = AtomicBool::new(false);
    scope(|scope| {
        scope.spawn(|| {
            while !ended.load(Ordering::SeqCst) {
                meddle();
            }
        });
        let begun = Instant::now();
        let asked =
            std::iter::repeat_with(ask).take_while(|_| begun.elapsed() < Duration::from_secs(60));
        let told = asked
            .into_iter()
            .any(|answer| matches!(answer, Err(Unread::Changed)));
        ended.store(true, Ordering::SeqCst);
        told
    })
}

#[test]
fn a_file_that_changes_while_it_is_read_is_told() {
    let path = written("changing", &[0; 60_000]);
    let mut file = File::options().append(true).open(&path).expect("the file");
    // It only grows: one that shrank would be seen by the bytes that were read.
    let grow = || file.write_all(&[0]).expect("a byte");
    let ask = || read(&path, &mut Vec::new()).map(drop);
    assert!(is_told(ask, grow));
}

/// Others take a file's place over and over, each with the same bytes.
#[test]
fn a_file_whose_place_another_takes_is_told() {
    let path = written("replaced", READ);
    let other = path.with_extension("other");
    let replace = || {
        fs::write(&other, READ).expect("a file");
        fs::rename(&other, &path).expect("a rename");
    };
    let ask = || judge_file(&path, Model::Linearizable, 10).map(drop);
    assert!(is_told(ask, replace));
}

#[test]
fn a_stamp_shows_every_change() {
    let path = written("stamp", READ);
    let stamp = || Stamp::of(&path).expect("a file");
    let before = stamp();
    assert_eq!(before, stamp());
    assert!(before.age() < Duration::from_secs(60));
    // A clock's tick later, so that times can tell.
    sleep(Duration::from_millis(20));
    fs::write(&path, READ).expect("a file");
    assert_ne!(stamp(), before);
    // Who sets its time back, changes another time.
    let set_back = || {
        let set = Command::new("touch")
            .args(["-d", "2020-01-01"])
            .arg(&path)
            .status();
        assert!(set.expect("touch").success());
        sleep(Duration::from_millis(20));
        stamp()
    };
    let first = set_back();
    fs::write(&path, READ).expect("a file");
    assert_ne!(set_back(), first);
    assert!(stamp().age() < Duration::from_secs(60));
    // Another file of the same bytes and times in its place.
    let (other, kept) = (path.with_extension("other"), stamp());
    let copied = Command::new("cp").arg("-p").args([&path, &other]).status();
    assert!(copied.expect("cp").success());
    fs::rename(&other, &path).expect("a rename");
    assert_ne!(stamp().identity(), kept.identity());
}

#[test]
fn operations_and_events_are_counted_up_to_a_refusal() {
    let counts = |file: &[u8]| {
        let answer = judge(file, Model::Linearizable, 10);
        let counts = count(file, &answer).expect("counts");
        (counts.events, counts.operations, counts.completed)
    };
    assert_eq!(counts(READ), (2, 1, 1));
    assert_eq!(counts(&READ[..8]), (1, 1, 0));
    assert_eq!(counts(&READ[..6]), (0, 0, 0));
    // A cut number, a second invoke, no capture, and one that is too long.
    assert_eq!(counts(&READ[..10]), (1, 1, 0));
    assert_eq!(counts(&[READ, &[0, 1, 0, 1]].concat()), (3, 2, 1));
    assert_eq!(counts(b"text"), (0, 0, 0));
    assert_eq!(counts(&[0; 65_537]), (0, 0, 0));
    // A stack of two values; a Push, and a Pop of nothing and of a value, and a length.
    let stack = b"RAW1\x02\x02\x82\x01\x84\x01\x00\x00\x06\x01\x00\x00\x01\x01\x01\x00\x00\x01\x01\x01\x01\x06\x00\x02\x01\x02\x02";
    assert_eq!(counts(stack), (8, 4, 4));
    // A write-once register of nothing, and of a value.
    for start in [&b"\x00"[..], b"\x01\x82\x01"] {
        let file = [
            b"RAW1\x01",
            start,
            b"\x00\x01\x01\x02\x00\x0e\x00\x02\x0f\x01",
        ]
        .concat();
        assert_eq!(counts(&file), (4, 2, 2));
    }
}

#[test]
fn an_answer_of_another_file_has_no_counts() {
    let answer = judge(READ, Model::Linearizable, 10);
    for file in [
        &b"text"[..],
        b"RAW1\x03\x00",
        &READ[..10],
        b"RAW1\x00\x00\x00\x02",
        b"",
    ] {
        assert_ne!(count(file, &answer), count(READ, &answer), "{file:?}");
    }
    assert_eq!(count(b"text", &answer), None);
    assert_eq!(count(&READ[..10], &answer), None);
    let place = 100;
    let refusal = Refusal::CutOff;
    assert_eq!(count(READ, &Answer::Refused { refusal, place }), None);
}
