//! Which files are judged, in which order, and what happens to those that can't be.

mod common;

use common::{command, folder, run, run_in, slow, write, EMPTY, GREEN, RED};
use std::fs;
use std::io::{BufRead, BufReader, Write};
use std::os::unix::fs::symlink;
use std::path::Path;
use std::process::{Command, Stdio};
use std::sync::mpsc::channel;
use std::thread::spawn;
use std::time::{Duration, Instant};

#[test]
fn folders_are_entered_and_sorted_and_hidden_files_skipped() {
    let top = folder("sorted");
    for name in ["b/2.raw", "b/1.raw", "a.raw", "c", "b/deep/er/x", "b.raw"] {
        write(&top, name, GREEN);
    }
    for name in [".hidden", ".git/config", "b/.x", "b/README.md"] {
        write(&top, name, RED);
    }
    let ran = run_in(&top, &["c", "."]);
    assert_eq!(
        ran.verdicts(),
        [
            ("Order", "c"),
            ("Skipped", "./.git"),
            ("Skipped", "./.hidden"),
            ("Order", "./a.raw"),
            ("Skipped", "./b/.x"),
            ("Order", "./b/1.raw"),
            ("Order", "./b/2.raw"),
            ("Skipped", "./b/README.md"),
            ("Order", "./b/deep/er/x"),
            ("Order", "./b.raw"),
            ("Order", "./c"),
        ]
    );
    assert!(ran.stdout.contains("\n4 skipped\n"));
    assert_eq!(
        ran.last_line(),
        "green: all of 7 files; 7 operations, 14 events judged"
    );
    assert_eq!(ran.status, 0);
}

#[test]
fn a_skipped_name_is_judged_when_it_is_given() {
    let top = folder("given");
    write(&top, ".hidden", RED);
    write(&top, "README.md", b"text");
    let ran = run_in(&top, &[".hidden", "README.md"]);
    assert_eq!(
        ran.verdicts(),
        [("No order", ".hidden"), ("Refused", "README.md")]
    );
    assert_eq!(ran.status, 1);
}

#[test]
fn skipped_files_are_told_in_every_report_and_may_be_an_error() {
    let top = folder("skipped");
    write(&top, "a.raw", GREEN);
    write(&top, ".b.raw.x7Yq2B", GREEN);
    let why = "hidden, as what a copying tool has not finished is";
    let line = format!("Skipped    ./.b.raw.x7Yq2B: {why}");
    let json = format!("\"file\":\"./.b.raw.x7Yq2B\",\"verdict\":\"skipped\",\"green\":false,\"meaning\":\"{why}\"");
    for (words, told) in [
        (&["."][..], &line),
        (&["--quiet", "."], &line),
        (&["--json", "."], &json),
        (&["--json", "--quiet", "."], &json),
    ] {
        let ran = run_in(&top, words);
        assert!(ran.stdout.contains(told.as_str()), "{}", ran.stdout);
        assert_eq!(ran.status, 0);
        let strict = run_in(&top, &[words, &["--no-skips"]].concat());
        assert!(strict.stdout.contains(told.as_str()), "{}", strict.stdout);
        assert_eq!(strict.status, 2);
    }
    let strict = run_in(&top, &["--no-skips", "."]);
    assert!(strict.last_line().starts_with("not green: "));
    assert_eq!(run_in(&top, &["--no-skips", "a.raw"]).status, 0);
}

#[test]
fn the_order_of_lines_does_not_depend_on_the_jobs() {
    let top = folder("jobs");
    for number in 0..300 {
        let file = if number % 7 == 0 { RED } else { GREEN };
        write(&top, &format!("{number:03}.raw"), file);
    }
    // The first takes longest.
    write(&top, "000.raw", &slow(3));
    let one = run_in(&top, &["--budget", "300000", "--jobs", "1", "."]);
    assert!(one.lines()[0].starts_with("Undecided"));
    for jobs in ["2", "8", "1000"] {
        let many = run_in(&top, &["--budget", "300000", "--jobs", jobs, "."]);
        assert_eq!(many.stdout, one.stdout);
    }
}

#[test]
fn an_unreadable_file_is_named_and_the_others_are_judged() {
    let top = folder("unreadable");
    write(&top, "a.raw", GREEN);
    write(&top, "c.raw", RED);
    let ran = run_in(&top, &["a.raw", "b.raw", "c.raw"]);
    assert_eq!(
        ran.verdicts(),
        [
            ("Order", "a.raw"),
            ("Unreadable", "b.raw"),
            ("No order", "c.raw")
        ]
    );
    assert!(ran.lines()[1].starts_with("Unreadable b.raw: No such file"));
    assert!(ran.stdout.contains("\n1 unreadable\n"));
    assert!(ran.last_line().starts_with("not green: 2 of 3 files; "));
    assert_eq!(ran.status, 2);

    let quiet = run_in(&top, &["--quiet", "a.raw", "b.raw"]);
    assert_eq!(quiet.lines().len(), 1);
    assert_eq!(quiet.status, 2);

    let json = run_in(&top, &["--json", "b.raw"]);
    let start = "{\"format\":1,\"file\":\"b.raw\",\"verdict\":\"unreadable\",\"green\":false,\"meaning\":\"No such";
    assert!(json.stdout.starts_with(start), "{}", json.stdout);
    assert_eq!(json.status, 2);
}

#[test]
fn a_link_is_followed_and_one_that_leads_nowhere_or_back_is_unreadable() {
    let top = folder("links");
    write(&top, "in/a.raw", GREEN);
    write(&top, "elsewhere/b.raw", GREEN);
    symlink("../elsewhere", top.join("in/b")).expect("a link");
    symlink("a.raw", top.join("in/c.raw")).expect("a link");
    let ran = run_in(&top, &["in"]);
    assert_eq!(
        ran.verdicts(),
        [
            ("Order", "in/a.raw"),
            ("Order", "in/b/b.raw"),
            ("Order", "in/c.raw")
        ]
    );
    assert_eq!(ran.status, 0);
    symlink("nowhere", top.join("in/d")).expect("a link");
    symlink("..", top.join("in/e")).expect("a link");
    let ran = run_in(&top, &["in"]);
    let lines = ran.file_lines();
    assert!(lines.contains(&"Unreadable in/d: No such file or directory (os error 2)"));
    assert!(ran
        .stdout
        .contains("Unreadable in/e/in: a link leads back to a folder that it lies in"));
    assert_eq!(ran.status, 2);
}

#[test]
fn a_folder_without_a_capture_is_not_green() {
    let top = folder("nothing");
    fs::create_dir(top.join("nothing")).expect("a folder");
    write(&top, "hidden/.a.raw", GREEN);
    write(&top, "a.raw", GREEN);
    for words in [&["nothing"][..], &["hidden"], &["a.raw", "nothing"]] {
        let ran = run_in(&top, words);
        let last = words[words.len() - 1];
        let told = format!("Unreadable {last}: there is no capture in this folder");
        assert!(ran.stdout.contains(&told), "{}", ran.stdout);
        assert_eq!(ran.status, 2);
    }
}

#[test]
fn a_capture_without_a_completed_operation_is_green_only_if_asked_for() {
    let top = folder("empty");
    write(&top, "a.raw", EMPTY);
    // A Read in flight.
    write(&top, "b.raw", &[EMPTY, &[0, 1]].concat());
    let ran = run_in(&top, &["."]);
    let why = "no operation was completed, so that nothing was judged";
    assert_eq!(
        ran.file_lines(),
        [
            format!("Empty      ./a.raw: {why}; 0 operations, 0 events"),
            format!("Empty      ./b.raw: {why}; 1 operation, 1 event"),
        ]
    );
    assert_eq!(
        ran.last_line(),
        "not green: 2 of 2 files; 1 operation, 1 event judged"
    );
    assert_eq!(ran.status, 2);
    let quiet = run_in(&top, &["--quiet", "."]);
    assert_eq!((quiet.lines(), quiet.status), (ran.file_lines(), 2));
    let json = run_in(&top, &["--json", "."]);
    assert!(json.lines()[0].contains("\"verdict\":\"empty\",\"green\":false,"));
    assert_eq!(json.status, 2);

    let allowed = run_in(&top, &["--allow-empty", "."]);
    assert_eq!(
        allowed.verdicts(),
        [("Order", "./a.raw"), ("Order", "./b.raw")]
    );
    assert_eq!(allowed.status, 0);
    // Beside one that is red.
    write(&top, "c.raw", RED);
    assert_eq!(run_in(&top, &["."]).status, 2);
    assert_eq!(run_in(&top, &["--allow-empty", "."]).status, 1);
}

#[test]
fn a_long_file_is_refused_and_not_read_to_its_end() {
    let top = folder("long");
    fs::File::create(top.join("huge.raw"))
        .and_then(|file| file.set_len(1 << 33))
        .expect("a file with a hole");
    write(&top, "most.raw", &[0; 65_536]);
    let ran = run_in(&top, &["huge.raw", "most.raw"]);
    let lines = ran.file_lines();
    assert!(lines[0].contains("refusal 20 in the header: the file is longer than 65,536 bytes"));
    assert!(lines[1].contains("refusal 21"));
    assert_eq!(ran.status, 1);
    let json = run_in(&top, &["--json", "huge.raw"]);
    assert!(json
        .stdout
        .contains("\"bytes\":8589934592,\"sha256\":null,"));
}

#[test]
fn a_deep_folder_takes_no_time() {
    let top = folder("deep");
    // One that is as deep as a path is long.
    let within = "d/".repeat(1_900 - top.as_os_str().len() / 2);
    let made = Command::new("mkdir")
        .arg("-p")
        .arg(&within)
        .current_dir(&top)
        .status();
    assert!(made.expect("mkdir").success());
    fs::write(top.join(&within).join("a.raw"), GREEN).expect("a file");
    let begun = Instant::now();
    let ran = run_in(&top, &["."]);
    let took = begun.elapsed();
    assert_eq!(
        ran.verdicts(),
        [("Order", format!("./{within}a.raw").as_str())]
    );
    assert_eq!(ran.status, 0);
    assert!(took < Duration::from_secs(5), "{took:?}");
    let removed = Command::new("rm").arg("-r").arg(&top).status();
    assert!(removed.expect("rm").success());
}

#[test]
fn a_dash_is_standard_input() {
    let top = folder("input");
    write(&top, "./-", RED);
    for (bytes, verdict, status) in [
        (GREEN, "Order", 0),
        (RED, "No order", 1),
        (b"", "Refused", 1),
    ] {
        let mut child = command(&top, &["-"])
            .stdin(Stdio::piped())
            .stdout(Stdio::piped())
            .spawn()
            .expect("the command");
        let mut input = child.stdin.take().expect("its input");
        input.write_all(bytes).expect("a capture");
        drop(input);
        let ran = common::Ran::from(child.wait_with_output().expect("an end"));
        assert_eq!(ran.verdicts(), [(verdict, "-")]);
        assert_eq!(ran.status, status);
    }
    assert_eq!(run_in(&top, &["./-"]).verdicts(), [("No order", "./-")]);
}

#[test]
fn a_line_is_printed_while_a_later_file_is_still_awaited() {
    let top = folder("awaited");
    write(&top, "a.raw", GREEN);
    let mut command = command(&top, &["a.raw", "-"]);
    let child = command.stdin(Stdio::piped()).stdout(Stdio::piped()).spawn();
    let mut child = child.expect("the command");
    let stdout = child.stdout.take().expect("its report");
    let (sender, first) = channel();
    spawn(move || sender.send(BufReader::new(stdout).lines().next()));
    let first = first.recv_timeout(Duration::from_secs(20));
    // Only now does the second file end.
    drop(child.stdin.take());
    child.wait().expect("an exit");
    let line = first.expect("a line in time").expect("a line");
    assert!(line.expect("text").starts_with("Order      a.raw: "));
}

#[test]
fn a_named_pipe_a_socket_and_a_device_are_not_waited_for() {
    let top = folder("special");
    let made = Command::new("mkfifo").arg(top.join("fifo")).status();
    assert!(made.expect("mkfifo").success());
    let _socket = std::os::unix::net::UnixListener::bind(top.join("socket")).expect("a socket");
    write(&top, "a.raw", GREEN);
    let told = |names: &[&str], found: &[&str]| {
        let begun = Instant::now();
        let ran = run_in(&top, names);
        assert!(begun.elapsed() < Duration::from_secs(5));
        for name in found {
            let line = format!("Unreadable {name}: neither a file nor a folder");
            assert!(ran.file_lines().contains(&line.as_str()), "{}", ran.stdout);
        }
        assert_eq!(ran.status, 2);
    };
    for name in ["fifo", "socket", "/dev/null", "/dev/zero"] {
        told(&[name], &[name]);
    }
    symlink("fifo", top.join("link")).expect("a link");
    told(&["."], &["./fifo", "./link", "./socket"]);
}

#[test]
fn the_report_and_the_log_are_no_captures() {
    let top = folder("own");
    write(&top, "in/a.raw", GREEN);
    let file = |name: &str| fs::File::create(top.join(name)).expect("a file");
    let mut command = command(&top, &["in"]);
    command
        .stdout(file("in/report.txt"))
        .stderr(file("in/log.txt"));
    assert_eq!(command.status().expect("the command").code(), Some(0));
    let report = fs::read_to_string(top.join("in/report.txt")).expect("a report");
    for name in ["in/log.txt", "in/report.txt"] {
        let line = format!("Skipped    {name}: this report is written to it\n");
        assert!(report.contains(&line), "{report}");
    }
    // Nor is it one that was skipped by its name.
    let mut strict = common::command(&top, &["--no-skips", "in", "in/report.txt"]);
    strict
        .stdout(file("in/report.txt"))
        .stderr(file("in/log.txt"));
    assert_eq!(strict.status().expect("the command").code(), Some(2));
    let report = fs::read_to_string(top.join("in/report.txt")).expect("a report");
    assert!(report.contains("Unreadable in/report.txt: this report is written to it\n"));
    assert!(
        report.contains("\n2 skipped\nnot green: 1 of 2 files"),
        "{report}"
    );
}

#[test]
fn a_path_that_is_relative_is_from_the_folder_of_the_call() {
    let top = folder("relative");
    write(&top, "in/a.raw", GREEN);
    let within = top.join("in");
    assert_eq!(
        run_in(&within, &["../in/a.raw"]).verdicts(),
        [("Order", "../in/a.raw")]
    );
    assert!(Path::new(&top).is_absolute());
    assert_eq!(run(&["samples/register/trace-14.raw"]).status, 0);
}
