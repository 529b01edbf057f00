//! Runs that are broken off: what was judged is told, and nothing is green.

mod common;

use common::{command, folder, slow, write, Ran, GREEN, RED};
use std::path::Path;
use std::process::{Child, Command, Stdio};
use std::thread::sleep;
use std::time::{Duration, Instant};

/// A folder whose second file takes longer than any test.
fn long_run(name: &str) -> std::path::PathBuf {
    let top = folder(name);
    write(&top, "a.raw", GREEN);
    write(&top, "b.raw", &slow(6));
    write(&top, "c.raw", RED);
    write(&top, "d.raw", GREEN);
    top
}

const WORDS: [&str; 4] = [
    "--budget=18446744073709551615",
    "--jobs=2",
    "--settle=0",
    ".",
];

/// Starts the command so that it heeds signals, whatever those do to who started it.
fn start(top: &Path, words: &[&str]) -> Child {
    let mut started = Command::new("env");
    started.args([
        "--default-signal=HUP,INT,TERM",
        env!("CARGO_BIN_EXE_kilteshva"),
    ]);
    started.args(words).current_dir(top);
    let child = started
        .stdout(Stdio::piped())
        .stderr(Stdio::piped())
        .spawn();
    child.expect("the command")
}

fn send(child: &Child, signal: &str) {
    let sent = Command::new("kill")
        .arg(format!("-{signal}"))
        .arg(child.id().to_string())
        .status();
    assert!(sent.expect("kill").success());
}

fn ended(child: Child) -> Ran {
    child.wait_with_output().expect("an end").into()
}

#[test]
fn a_signal_ends_the_run_and_what_was_judged_is_told() {
    let top = long_run("signal");
    for signal in ["INT", "TERM", "HUP"] {
        let child = start(&top, &WORDS);
        sleep(Duration::from_millis(500));
        let begun = Instant::now();
        send(&child, signal);
        let ran = ended(child);
        assert!(begun.elapsed() < Duration::from_secs(2));
        assert_eq!(
            ran.verdicts(),
            [
                ("Order", "./a.raw"),
                ("No order", "./c.raw"),
                ("Order", "./d.raw")
            ]
        );
        let told = format!("\ninterrupted by SIG{signal}: not all was judged\n");
        assert!(ran.stdout.contains(&told), "{}", ran.stdout);
        assert_eq!(
            ran.last_line(),
            "not green: 1 of 3 files; 3 operations, 6 events judged"
        );
        assert_eq!(ran.status, 2);
    }
}

#[test]
fn a_run_of_green_files_that_is_broken_off_is_not_green() {
    let top = long_run("green");
    std::fs::remove_file(top.join("c.raw")).expect("a file");
    for (words, told) in [
        (
            &[][..],
            "\ninterrupted by SIGTERM: not all was judged\nnot green: 0 of 2 files",
        ),
        (
            &["--quiet"],
            "\ninterrupted by SIGTERM: not all was judged\nnot green: 0 of 2 files",
        ),
        (&["--json"], "\"status\":2,\"interrupted\":\"by SIGTERM\","),
        (
            &["--json", "--quiet"],
            "\"status\":2,\"interrupted\":\"by SIGTERM\",",
        ),
    ] {
        let child = start(&top, &[&WORDS, words].concat());
        sleep(Duration::from_millis(500));
        send(&child, "TERM");
        let ran = ended(child);
        assert!(ran.stdout.contains(told), "{}", ran.stdout);
        assert_eq!(ran.status, 2);
    }
}

#[test]
fn the_time_given_ends_the_run() {
    let top = long_run("time");
    let begun = Instant::now();
    let ran = ended(start(&top, &[&WORDS[..], &["--seconds=1"]].concat()));
    let took = begun.elapsed();
    assert!((1_000..3_000).contains(&took.as_millis()), "{took:?}");
    assert_eq!(ran.verdicts().len(), 3);
    let told = "\ninterrupted after 1 s, the time given for the run: not all was judged\n";
    assert!(ran.stdout.contains(told), "{}", ran.stdout);
    assert_eq!(ran.status, 2);
    // Time enough.
    std::fs::remove_file(top.join("b.raw")).expect("a file");
    assert_eq!(
        ended(start(&top, &["--settle=0", "--seconds=60", "a.raw"])).status,
        0
    );
}

#[test]
fn a_file_that_is_watched_does_not_keep_the_run_from_ending() {
    let top = folder("watched");
    write(&top, "a.raw", GREEN);
    let child = start(&top, &["--settle=60", "a.raw"]);
    sleep(Duration::from_millis(300));
    send(&child, "INT");
    let ran = ended(child);
    assert!(
        ran.stdout.contains("\ninterrupted by SIGINT"),
        "{}",
        ran.stdout
    );
    assert_eq!(ran.status, 2);
    let timed = ended(start(&top, &["--settle=60", "--seconds=1", "a.raw"]));
    assert!(
        timed.stdout.contains("\ninterrupted after 1 s"),
        "{}",
        timed.stdout
    );
    assert_eq!(timed.status, 2);
}

#[test]
fn a_signal_that_was_turned_off_stays_so() {
    let top = folder("nohup");
    write(&top, "a.raw", GREEN);
    let mut started = Command::new("env");
    started.args(["--ignore-signal=HUP", env!("CARGO_BIN_EXE_kilteshva")]);
    started
        .args(["--settle=2", "a.raw"])
        .current_dir(&top)
        .stdout(Stdio::piped());
    let child = started.spawn().expect("the command");
    sleep(Duration::from_millis(300));
    send(&child, "HUP");
    assert_eq!(ended(child).status, 0);
}

#[test]
fn a_report_that_no_one_reads_to_its_end_is_not_green() {
    let top = folder("unread");
    write(&top, "a.raw", GREEN);
    // More than a pipe holds.
    let mut command = command(&top, &["a.raw"; 5_000]);
    let child = command.stdout(Stdio::piped()).spawn();
    let mut child = child.expect("the command");
    drop(child.stdout.take());
    assert_eq!(child.wait().expect("an exit").code(), Some(2));
}

#[test]
fn a_report_that_has_nowhere_to_go_is_not_green() {
    let top = folder("closed");
    write(&top, "a.raw", GREEN);
    for words in ["a.raw", "--help", "--version"] {
        let shell = format!(
            "exec '{}' --settle=0 {words} >&-",
            env!("CARGO_BIN_EXE_kilteshva")
        );
        let output = Command::new("sh")
            .args(["-c", &shell])
            .current_dir(&top)
            .output();
        let ran = Ran::from(output.expect("the command"));
        assert_eq!(ran.status, 2, "{words}");
        assert!(
            ran.stderr.contains("standard output is closed"),
            "{}",
            ran.stderr
        );
    }
    // One that nobody wants is another matter.
    let mut unwanted = command(&top, &["a.raw"]);
    let status = unwanted
        .stdout(Stdio::null())
        .status()
        .expect("the command");
    assert_eq!(status.code(), Some(0));
}
