//! Names in the report: none can look like a line of its own, or like another's.

mod common;

use common::{folder, run_in, write, GREEN, RED};
use std::ffi::OsStr;
use std::fs;
use std::os::unix::ffi::OsStrExt;

#[test]
fn a_name_can_not_look_like_a_line_of_its_own() {
    let top = folder("names");
    write(&top, "a\nOrder      b", RED);
    let ran = run_in(&top, &["."]);
    assert_eq!(ran.file_lines().len(), 1);
    assert!(ran.stdout.starts_with("No order   ./a\\nOrder      b: "));
}

#[test]
fn names_that_are_no_text_stay_apart() {
    let top = folder("bytes");
    for name in [b"\xfe.raw", b"\xff.raw"] {
        fs::write(top.join(OsStr::from_bytes(name)), GREEN).expect("a file");
    }
    write(&top, "\\xff.raw", GREEN);
    write(&top, "\u{fffd}.raw", GREEN);
    let ran = run_in(&top, &["."]);
    let names: Vec<_> = ran.verdicts().into_iter().map(|(_, name)| name).collect();
    let shown = [
        "./\\\\xff.raw",
        "./\u{fffd}.raw",
        "./\\xfe.raw",
        "./\\xff.raw",
    ];
    assert_eq!(names, shown);
    let json = run_in(&top, &["--json", "."]);
    let has = |text: &str| {
        json.lines()
            .iter()
            .filter(|line| line.contains(text))
            .count()
    };
    assert_eq!(has("\"file\":\"./\u{fffd}.raw\",\"model\""), 1);
    assert_eq!(has("\"file_bytes\":\"2e2ffe2e726177\""), 1);
    assert_eq!(has("\"file_bytes\":\"2e2fff2e726177\""), 1);
    assert_eq!(has("\"file\":\"./\\\\xff.raw\""), 1);
}

#[test]
fn what_turns_text_around_or_ends_a_line_is_escaped() {
    let top = folder("turned");
    write(&top, "war.\u{202e}neerg", RED);
    write(&top, "a\u{2028}b", RED);
    let ran = run_in(&top, &["."]);
    assert!(ran.stdout.contains("No order   ./a\\u{2028}b: "));
    assert!(ran.stdout.contains("No order   ./war.\\u{202e}neerg: "));
    assert!(ran.stdout.is_ascii());
    let json = run_in(&top, &["--json", "."]);
    assert!(json.stdout.contains("\"file\":\"./a\\u2028b\""));
    assert!(json.stdout.contains("\"file\":\"./war.\\u202eneerg\""));
    assert!(json.stdout.is_ascii());
}
