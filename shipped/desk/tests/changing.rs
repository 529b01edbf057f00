//! Captures that are still being written, or half copied: never green.

mod common;

use common::{command, folder, run_in, write, Ran, GREEN, RED};
use std::fs::{self, File, OpenOptions};
use std::io::Write;
use std::path::Path;
use std::process::Stdio;
use std::sync::atomic::{AtomicBool, Ordering};
use std::thread::{scope, sleep};
use std::time::{Duration, Instant};

/// The start of a capture is green, and the whole is not.
const WHOLE: &[u8] = b"RAW1\x00\x00\x00\x01\x01\x01\x00\x00\x01\x01\x01\x02";
const HALF: usize = GREEN.len();

/// Starts the command on a capture whose half is there, hands it over and ends.
fn judged_while(name: &str, words: &[&str], then: impl FnOnce(&Path)) -> Ran {
    let top = folder(name);
    write(&top, "a.raw", &WHOLE[..HALF]);
    write(&top, "b.raw", GREEN);
    let mut command = command(&top, &[words, &["a.raw", "b.raw", "-"]].concat());
    command
        .stdin(Stdio::piped())
        .stdout(Stdio::piped())
        .stderr(Stdio::piped());
    let mut child = command.spawn().expect("the command");
    // By now the files are judged; the run ends when its last one, standard input, does.
    sleep(Duration::from_millis(300));
    then(&top);
    let mut input = child.stdin.take().expect("its input");
    input.write_all(GREEN).expect("a capture");
    drop(input);
    child.wait_with_output().expect("an end").into()
}

fn assert_changed(ran: &Ran) {
    let line = "Changed    a.raw: it changed after it was judged: it may still be being written";
    assert!(ran.stdout.contains(line), "{}", ran.stdout);
    assert!(ran.stdout.contains("\n1 changed\n"), "{}", ran.stdout);
    assert!(ran.last_line().starts_with("not green: 1 of 3 files; "));
    assert_eq!(ran.status, 2);
}

#[test]
fn a_file_that_goes_on_after_it_was_judged_is_not_green() {
    let ran = judged_while("goes-on", &[], |top| {
        let file = OpenOptions::new().append(true).open(top.join("a.raw"));
        file.and_then(|mut file| file.write_all(&WHOLE[HALF..]))
            .expect("the rest");
    });
    assert_changed(&ran);
}

#[test]
fn a_file_that_is_written_anew_in_the_same_size_is_not_green() {
    let ran = judged_while("anew", &[], |top| write(top, "a.raw", RED));
    assert_eq!(GREEN.len(), RED.len());
    assert_changed(&ran);
}

#[test]
fn a_file_whose_place_another_takes_is_not_green() {
    let ran = judged_while("replaced", &[], |top| {
        write(top, "c.raw", WHOLE);
        fs::rename(top.join("c.raw"), top.join("a.raw")).expect("a rename");
    });
    assert_changed(&ran);
}

#[test]
fn a_file_that_is_gone_is_not_green() {
    let ran = judged_while("gone", &[], |top| {
        fs::remove_file(top.join("a.raw")).expect("a file");
    });
    assert_changed(&ran);
}

#[test]
fn a_file_that_stays_as_it_is_is_green() {
    let ran = judged_while("stays", &[], |_| {});
    assert_eq!(ran.status, 0, "{}", ran.stdout);
}

#[test]
fn quiet_and_json_tell_it_too() {
    let go_on = |top: &Path| write(top, "a.raw", WHOLE);
    let quiet = judged_while("quiet", &["--quiet"], go_on);
    assert!(quiet.stdout.starts_with("Changed    a.raw: "));
    let json = judged_while("json", &["--json"], go_on);
    assert!(json
        .stdout
        .contains("\"file\":\"a.raw\",\"verdict\":\"changed\",\"green\":false,"));
    assert_eq!((quiet.status, json.status), (2, 2));
}

#[test]
fn a_fresh_file_is_watched_until_it_has_been_still() {
    let top = folder("fresh");
    write(&top, "a.raw", GREEN);
    let begun = Instant::now();
    assert_eq!(run_in(&top, &["--settle=2", "a.raw"]).status, 0);
    assert!(begun.elapsed() >= Duration::from_secs(2));
    // By now it has.
    let begun = Instant::now();
    assert_eq!(run_in(&top, &["--settle=2", "a.raw"]).status, 0);
    assert!(begun.elapsed() < Duration::from_millis(1_500));
    // One that goes on meanwhile, after it was told.
    write(&top, "a.raw", GREEN);
    let mut command = command(&top, &["--settle=2", "a.raw"]);
    let child = command.stdout(Stdio::piped()).spawn().expect("the command");
    sleep(Duration::from_millis(500));
    write(&top, "a.raw", WHOLE);
    let ran = Ran::from(child.wait_with_output().expect("an end"));
    assert_eq!(ran.verdicts(), [("Order", "a.raw"), ("Changed", "a.raw")]);
    assert_eq!(ran.status, 2);
}

/// A writer that writes a red capture over and over, a byte at a time, and the command beside it.
#[test]
fn no_run_beside_a_writer_is_green() {
    let top = folder("beside");
    let path = top.join("a.raw");
    let ended = AtomicBool::new(false);
    write(&top, "a.raw", WHOLE);
    scope(|scope| {
        scope.spawn(|| {
            while !ended.load(Ordering::SeqCst) {
                let mut file = File::create(&path).expect("the capture");
                for byte in WHOLE {
                    file.write_all(&[*byte]).expect("a byte");
                    sleep(Duration::from_micros(300));
                }
            }
        });
        let words = ["--settle=1", "a.raw"];
        let runs: Vec<_> = (0..20)
            .map(|_| {
                sleep(Duration::from_millis(7));
                command(&top, &words)
                    .stdout(Stdio::piped())
                    .spawn()
                    .expect("the command")
            })
            .collect();
        let statuses: Vec<_> = runs
            .into_iter()
            .map(|run| run.wait_with_output().expect("an end").status.code())
            .collect();
        ended.store(true, Ordering::SeqCst);
        assert!(
            statuses.iter().all(|status| *status == Some(2)),
            "{statuses:?}"
        );
    });
}
