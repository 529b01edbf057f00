//! What can be asked, and what is shown on a terminal.

mod common;

use common::{folder, run, slow, write, GREEN, RED};
use std::path::Path;
use std::process::Command;

#[test]
fn bad_usage_is_told_on_stderr() {
    for words in [
        &[][..],
        &["--model", "none", "samples"],
        &["--budget"],
        &["--what", "samples"],
        &["--json", "--json", "samples"],
    ] {
        let ran = run(words);
        assert_eq!((ran.status, ran.stdout.as_str()), (2, ""));
        assert!(ran.stderr.starts_with("kilteshva: "), "{}", ran.stderr);
    }
}

#[test]
fn help_tells_every_option_and_status() {
    let ran = run(&["--help"]);
    assert_eq!(ran.status, 0);
    assert_eq!(ran.stdout, include_str!("../src/help.txt"));
    for told in [
        "--model",
        "--budget",
        "--seconds",
        "--manifest",
        "--expect",
        "--no-skips",
        "--allow-empty",
        "--settle",
        "--jobs",
        "--json",
        "--quiet",
        "--version",
        "--help",
        "hidden",
        "README.md",
        "1000000000",
        "NO_COLOR",
        "TERM",
        "Order",
        "No order",
        "Undecided",
        "Invalid",
        "Refused",
        "Empty",
        "Unreadable",
        "Changed",
        "Differs",
        "Unlisted",
        "Missing",
        "Skipped",
        "Unknown",
        "\n  0  ",
        "\n  1  ",
        "\n  2  ",
        "\n  3  ",
        "SIGINT",
        "\"sha256\"",
    ] {
        assert!(ran.stdout.contains(told), "{told}");
    }
}

/// What a terminal gets of a run.
fn on_terminal(top: &Path, environment: &[(&str, &str)], words: &str) -> String {
    let line = format!("'{}' --settle=0 {words}", env!("CARGO_BIN_EXE_kilteshva"));
    let mut command = Command::new("script");
    command.args(["-qec", &line, "/dev/null"]).current_dir(top);
    command
        .env_remove("NO_COLOR")
        .env("TERM", "xterm")
        .envs(environment.iter().copied());
    let output = command.output().expect("script");
    String::from_utf8(output.stdout).expect("text")
}

#[test]
fn a_terminal_gets_colours_unless_they_are_not_wanted() {
    let top = folder("colours");
    write(&top, "a.raw", GREEN);
    write(&top, "b.raw", RED);
    let coloured = on_terminal(&top, &[], ".");
    assert!(
        coloured.contains("\x1b[32mOrder     \x1b[0m ./a.raw: "),
        "{coloured}"
    );
    assert!(coloured.contains("\x1b[31mNo order  \x1b[0m ./b.raw: "));
    assert!(coloured.contains("\x1b[31mnot green: 1 of 2 files"));
    assert!(on_terminal(&top, &[("NO_COLOR", "")], ".").contains('\x1b'));
    for plain in [("NO_COLOR", "1"), ("TERM", "dumb")] {
        let plain = on_terminal(&top, &[plain], ".");
        assert!(
            plain.contains("Order      ./a.raw: ") && !plain.contains('\x1b'),
            "{plain}"
        );
    }
}

#[test]
fn a_terminal_is_shown_how_far_a_long_run_has_come() {
    let top = folder("progress");
    write(&top, "a.raw", GREEN);
    write(&top, "b.raw", &slow(6));
    let words = "--seconds=2 --budget=18446744073709551615 .";
    let shown = on_terminal(&top, &[], words);
    assert!(shown.contains("\r\x1b[K1 / 2 files, "), "{shown}");
    for (environment, words) in [
        (&[("TERM", "dumb")][..], words.to_string()),
        (&[], format!("--quiet {words}")),
    ] {
        let shown = on_terminal(&top, environment, &words);
        assert!(
            shown.contains("interrupted") && !shown.contains(" / 2 files"),
            "{shown}"
        );
    }
}
