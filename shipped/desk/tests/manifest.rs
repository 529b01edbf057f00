//! What was handed over, by a manifest and by a number.

mod common;

use common::{folder, run_in, write, GREEN, RED};
use std::fs;
use std::os::unix::fs::symlink;
use std::path::{Path, PathBuf};
use std::process::Command;

/// A line of a manifest, as sha256sum would have it, and the size.
fn line(folder: &Path, name: &str) -> String {
    let output = Command::new("sha256sum")
        .arg(name)
        .current_dir(folder)
        .output();
    let output = String::from_utf8(output.expect("sha256sum").stdout).expect("text");
    let size = fs::metadata(folder.join(name)).expect("a file").len();
    format!("{}  {size}  {name}\n", &output[..64])
}

/// A folder of captures and, beside them, the manifest of all.
fn handed_over(name: &str) -> PathBuf {
    let top = folder(name);
    for name in ["a.raw", "b c.raw", "in/d.raw"] {
        write(&top, name, GREEN);
    }
    write(
        &top,
        "long.raw",
        &[GREEN, &[0, 1, 1, 1, 0].repeat(20)].concat(),
    );
    let names = ["in/d.raw", "a.raw", "long.raw", "b c.raw"];
    let manifest: String = names.iter().map(|name| line(&top, name)).collect();
    write(&top, "manifest", manifest.as_bytes());
    top
}

const WORDS: [&str; 2] = ["--manifest=manifest", "."];

#[test]
fn what_the_manifest_names_is_green() {
    let top = handed_over("listed");
    let ran = run_in(&top, &WORDS);
    assert_eq!(ran.status, 0, "{}", ran.stdout);
    assert!(ran
        .stdout
        .contains("Skipped    ./manifest: it is the manifest\n"));
    assert!(ran.last_line().starts_with("green: all of 4 files; "));
    // From elsewhere, by other names, by a link to the folder.
    let above = top.parent().expect("a folder");
    symlink(&top, above.join("listed-link"))
        .or_else(|_| fs::metadata(above.join("listed-link")).map(drop))
        .expect("a link");
    for (manifest, judged) in [
        ("listed/manifest", "listed"),
        ("listed/in/../manifest", "listed/in/.."),
        ("listed/manifest", "listed-link"),
        ("listed-link/manifest", "listed"),
    ] {
        let ran = run_in(above, &["--no-skips", "--manifest", manifest, judged]);
        assert_eq!(ran.status, 0, "{}", ran.stdout);
    }
    assert_eq!(
        run_in(&top, &["--json", "--quiet", WORDS[0], WORDS[1]]).status,
        0
    );
}

#[test]
fn a_cut_a_changed_an_extra_and_a_missing_file_are_not_green() {
    let top = handed_over("unlisted");
    // Cut behind an event, it is a green capture of its own.
    let long = fs::read(top.join("long.raw")).expect("a capture");
    write(&top, "long.raw", &long[..GREEN.len()]);
    assert_eq!(run_in(&top, &["long.raw"]).status, 0);
    write(&top, "a.raw", RED);
    write(&top, "in/e.raw", GREEN);
    fs::remove_file(top.join("b c.raw")).expect("a file");
    let ran = run_in(&top, &WORDS);
    assert_eq!(
        ran.verdicts(),
        [
            ("Differs", "./a.raw"),
            ("Order", "./in/d.raw"),
            ("Unlisted", "./in/e.raw"),
            ("Differs", "./long.raw"),
            ("Skipped", "./manifest"),
            ("Missing", "b c.raw"),
        ]
    );
    let size = format!(
        "its size is not the manifest's: {} bytes, and not {}",
        GREEN.len(),
        long.len()
    );
    assert!(ran.stdout.contains(&size), "{}", ran.stdout);
    assert!(ran.stdout.contains("its SHA-256 is not the manifest's"));
    assert!(ran
        .stdout
        .contains("\n2 differs\n1 unlisted\n1 missing\n1 skipped\nnot green: 4 of 5 files;"));
    assert_eq!(ran.status, 2);
    let quiet = run_in(&top, &["--quiet", WORDS[0], WORDS[1]]);
    assert_eq!((quiet.lines().len(), quiet.status), (5, 2));
}

#[test]
fn each_fault_alone_is_not_green() {
    type Fault = fn(&Path);
    let faults: [(&str, Fault); 4] = [
        ("Differs", |top| write(top, "a.raw", RED)),
        ("Differs", |top| {
            write(top, "a.raw", &GREEN[..GREEN.len() - 5])
        }),
        ("Unlisted", |top| write(top, "in/e.raw", GREEN)),
        ("Missing", |top| {
            fs::remove_file(top.join("a.raw")).expect("a file")
        }),
    ];
    for (verdict, fault) in faults {
        let top = handed_over("fault");
        fault(&top);
        let ran = run_in(&top, &WORDS);
        let told: Vec<_> = ran
            .verdicts()
            .into_iter()
            .map(|(verdict, _)| verdict)
            .collect();
        assert!(told.contains(&verdict), "{}", ran.stdout);
        assert_eq!(ran.status, 2);
        let json = run_in(&top, &["--json", "--allow-empty", WORDS[0], WORDS[1]]);
        let verdict = format!("\"verdict\":\"{}\"", verdict.to_lowercase());
        assert!(json.stdout.contains(&verdict), "{}", json.stdout);
        assert_eq!(json.status, 2);
    }
}

#[test]
fn a_bad_manifest_is_told_and_nothing_is_judged() {
    let top = handed_over("bad");
    let good = fs::read_to_string(top.join("manifest")).expect("a manifest");
    let first = good.lines().next().expect("a line");
    for (bad, told) in [
        (String::new(), "it names no capture"),
        (
            good[..good.len() - 1].to_string(),
            "its last line is cut off",
        ),
        (format!("{good}{first}\n"), "in/d.raw is named twice"),
        (
            format!("{good}{}\n", first.replace("in/d", "in/../in/d")),
            "is named twice",
        ),
        (good.replace("  ", " "), "line 1 is not of the form"),
    ] {
        write(&top, "manifest", bad.as_bytes());
        let ran = run_in(&top, &WORDS);
        assert_eq!((ran.status, ran.stdout.as_str()), (2, ""));
        assert!(ran.stderr.contains(told), "{}", ran.stderr);
    }
    let none = run_in(&top, &["--manifest=none", "."]);
    assert_eq!((none.status, none.stdout.as_str()), (2, ""));
    assert!(none.stderr.contains("the manifest none: No such file"));
}

#[test]
fn as_many_captures_as_expected() {
    let top = folder("expected");
    write(&top, "in/a.raw", GREEN);
    write(&top, "in/b.raw", GREEN);
    assert_eq!(run_in(&top, &["--expect=2", "in"]).status, 0);
    for (expected, told) in [
        ("0", "expected 0 captures"),
        ("1", "expected 1 capture"),
        ("3", "expected 3 captures"),
    ] {
        for quiet in [&[][..], &["--quiet"]] {
            let ran = run_in(&top, &[&["--expect", expected, "in"], quiet].concat());
            assert!(
                ran.stdout.contains(&format!("\n{told}, judged 2\n")),
                "{}",
                ran.stdout
            );
            assert_eq!(ran.status, 2);
        }
        let json = run_in(&top, &["--quiet", "--json", "--expect", expected, "in"]);
        assert!(json
            .stdout
            .contains(&format!("\"captures\":2,\"expected\":{expected},")));
        assert_eq!(json.status, 2);
    }
    // One file under two names is one capture.
    symlink("a.raw", top.join("in/c.raw")).expect("a link");
    assert_eq!(run_in(&top, &["--expect=3", "in"]).status, 2);
    assert_eq!(run_in(&top, &["--expect=2", "in", "in/b.raw"]).status, 0);
}
