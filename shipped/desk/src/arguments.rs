//! What the command is asked to do.

use kilteshva::Model;
use std::collections::BTreeSet;
use std::ffi::{OsStr, OsString};
use std::num::NonZeroUsize;
use std::os::unix::ffi::OsStrExt;
use std::path::PathBuf;
use std::thread::available_parallelism;
use std::time::Duration;

/// Attempts for each file and model, where nothing else is asked for.
const BUDGET: u64 = 1_000_000_000;

/// How long a file has to have been still, where nothing else is asked for.
const SETTLE: Duration = Duration::from_secs(1);

/// A day: no option of seconds takes more.
const MOST_SECONDS: u32 = 86_400;

#[derive(Debug, PartialEq)]
pub enum Asked {
    Help,
    Version,
    Judge(Options),
}

#[derive(Debug, PartialEq)]
pub struct Options {
    pub models: Vec<Model>,
    pub budget: u64,
    /// The time for the whole run.
    pub limit: Option<Duration>,
    /// How long a file has to have been still.
    pub settle: Duration,
    pub jobs: NonZeroUsize,
    pub manifest: Option<PathBuf>,
    /// How many captures there have to be.
    pub expected: Option<usize>,
    /// Whether a skipped file is an error.
    pub no_skips: bool,
    /// Whether a capture without a completed operation is green.
    pub allow_empty: bool,
    pub json: bool,
    pub quiet: bool,
    /// The files and folders given, at least one; `-` is standard input.
    pub paths: Vec<PathBuf>,
}

impl Default for Options {
    fn default() -> Self {
        Options {
            models: vec![Model::Linearizable],
            budget: BUDGET,
            limit: None,
            settle: SETTLE,
            jobs: available_parallelism().unwrap_or(NonZeroUsize::MIN),
            manifest: None,
            expected: None,
            no_skips: false,
            allow_empty: false,
            json: false,
            quiet: false,
            paths: Vec::new(),
        }
    }
}

/// Takes the words after the command's name apart, or says what is wrong with them.
pub fn parse(words: impl IntoIterator<Item = OsString>) -> Result<Asked, String> {
    let mut options = Options::default();
    let mut given = BTreeSet::new();
    let mut words = words.into_iter();
    while let Some(word) = words.next() {
        let (name, attached) = apart(&word);
        if name == "--" {
            options.paths.extend(words.by_ref().map(PathBuf::from));
            continue;
        }
        if !name.starts_with('-') || name == "-" {
            options.paths.push(word.into());
            continue;
        }
        let mut value = || {
            let value = attached.clone().or_else(|| words.next());
            value.ok_or_else(|| format!("{name} needs a value"))
        };
        match name.as_str() {
            "--model" => options.models = models(&value()?)?,
            "--budget" => options.budget = number(&name, &value()?)?,
            "--seconds" => options.limit = Some(seconds(&name, &value()?, 1)?),
            "--settle" => options.settle = seconds(&name, &value()?, 0)?,
            "--jobs" => options.jobs = number(&name, &value()?)?,
            "--manifest" => options.manifest = Some(value()?.into()),
            "--expect" => options.expected = Some(number(&name, &value()?)?),
            _ if attached.is_some() => return Err(format!("unknown option {}", word.display())),
            "--no-skips" => options.no_skips = true,
            "--allow-empty" => options.allow_empty = true,
            "--json" => options.json = true,
            "--quiet" => options.quiet = true,
            "--help" | "-h" => return Ok(Asked::Help),
            "--version" => return Ok(Asked::Version),
            _ => return Err(format!("unknown option {name}")),
        }
        // Of two values one would be passed over: the weaker model, say, would win by standing last.
        if !given.insert(name.clone()) {
            return Err(format!("{name} is given twice"));
        }
    }
    if options.paths.is_empty() {
        return Err("no file or folder is given".to_string());
    }
    Ok(Asked::Judge(options))
}

/// An option's name, and the value that an equals sign attaches to it.
fn apart(word: &OsStr) -> (String, Option<OsString>) {
    let bytes = word.as_bytes();
    let equals = bytes.iter().position(|byte| *byte == b'=');
    match equals.filter(|_| bytes.starts_with(b"--")) {
        Some(at) => {
            let name = String::from_utf8_lossy(&bytes[..at]).into_owned();
            (name, Some(OsStr::from_bytes(&bytes[at + 1..]).into()))
        }
        None => (word.to_string_lossy().into_owned(), None),
    }
}

fn models(value: &OsStr) -> Result<Vec<Model>, String> {
    let name = value.to_string_lossy();
    match name.parse() {
        Ok(model) => Ok(vec![model]),
        Err(_) if name == "both" => Ok(Model::ALL.to_vec()),
        Err(_) => Err(format!(
            "--model is linearizable, sequential or both, not {name}"
        )),
    }
}

fn number<N: std::str::FromStr>(name: &str, value: &OsStr) -> Result<N, String> {
    let number = value.to_str().and_then(|digits| digits.parse().ok());
    number.ok_or_else(|| {
        format!(
            "{name} needs a number in its range, not {}",
            value.display()
        )
    })
}

fn seconds(name: &str, value: &OsStr, least: u32) -> Result<Duration, String> {
    match number(name, value)? {
        seconds if (least..=MOST_SECONDS).contains(&seconds) => {
            Ok(Duration::from_secs(seconds.into()))
        }
        _ => Err(format!("{name} is {least} to {MOST_SECONDS} seconds")),
    }
}

#[cfg(test)]
mod tests {
    use super::*;

    fn parsed(words: &[&str]) -> Result<Asked, String> {
        parse(words.iter().map(OsString::from))
    }

    fn options(words: &[&str]) -> Options {
        match parsed(words) {
            Ok(Asked::Judge(options)) => options,
            other => panic!("{other:?}"),
        }
    }

    #[test]
    fn a_path_is_enough() {
        let options = options(&["night"]);
        assert_eq!(options.models, [Model::Linearizable]);
        assert_eq!(options.budget, 1_000_000_000);
        assert_eq!((options.limit, options.settle), (None, SETTLE));
        assert_eq!((&options.manifest, options.expected), (&None, None));
        assert!(!options.json && !options.quiet && !options.no_skips && !options.allow_empty);
        assert_eq!(options.paths, [PathBuf::from("night")]);
    }

    #[test]
    fn options_are_taken_in_both_forms_and_anywhere() {
        let apart = options(&[
            "a",
            "--model",
            "both",
            "--budget",
            "7",
            "b",
            "--jobs",
            "3",
            "--seconds",
            "9",
            "--settle",
            "0",
            "--manifest",
            "m",
            "--expect",
            "2",
        ]);
        let attached = options(&[
            "--model=both",
            "--budget=7",
            "--jobs=3",
            "--seconds=9",
            "--settle=0",
            "--manifest=m",
            "--expect=2",
            "a",
            "b",
        ]);
        assert_eq!(apart, attached);
        assert_eq!(apart.models, [Model::Linearizable, Model::Sequential]);
        assert_eq!((apart.budget, apart.jobs.get()), (7, 3));
        assert_eq!(apart.limit, Some(Duration::from_secs(9)));
        assert_eq!(apart.settle, Duration::ZERO);
        assert_eq!(apart.manifest, Some("m".into()));
        assert_eq!(apart.expected, Some(2));
    }

    #[test]
    fn an_option_is_given_once() {
        for name in [
            "--model",
            "--budget",
            "--seconds",
            "--settle",
            "--jobs",
            "--manifest",
            "--expect",
        ] {
            let value = if name == "--model" { "both" } else { "1" };
            let twice = parsed(&[name, value, "a", &format!("{name}={value}")]);
            assert_eq!(twice, Err(format!("{name} is given twice")));
        }
        for name in ["--no-skips", "--allow-empty", "--json", "--quiet"] {
            assert_eq!(
                parsed(&[name, "a", name]),
                Err(format!("{name} is given twice"))
            );
        }
    }

    #[test]
    fn words_after_two_dashes_are_paths() {
        let options = options(&["--json", "--", "--quiet", "x=y"]);
        assert!(options.json && !options.quiet);
        assert_eq!(options.paths, [PathBuf::from("--quiet"), "x=y".into()]);
    }

    #[test]
    fn a_path_may_hold_an_equals_sign_or_be_a_dash() {
        assert_eq!(
            options(&["x=y", "-"]).paths,
            [PathBuf::from("x=y"), "-".into()]
        );
    }

    #[test]
    fn a_value_may_be_no_text() {
        let name = OsStr::from_bytes(b"\xff");
        let attached = OsStr::from_bytes(b"--manifest=\xff").to_os_string();
        let Ok(Asked::Judge(options)) = parse([attached, "a".into()]) else {
            panic!("refused");
        };
        assert_eq!(options.manifest, Some(name.into()));
    }

    #[test]
    fn help_and_version_are_given_whatever_else_is_asked() {
        assert_eq!(parsed(&["night", "--help"]), Ok(Asked::Help));
        assert_eq!(parsed(&["-h"]), Ok(Asked::Help));
        assert_eq!(parsed(&["night", "--version"]), Ok(Asked::Version));
    }

    #[test]
    fn bad_usage_is_told() {
        for (words, told) in [
            (&[][..], "no file or folder is given"),
            (&["--json"], "no file or folder is given"),
            (&["--model"], "--model needs a value"),
            (&["--model", "lamport", "a"], "not lamport"),
            (&["--budget", "many", "a"], "--budget needs a number"),
            (&["--budget", "-1", "a"], "--budget needs a number"),
            (&["--budget=18446744073709551616", "a"], "needs a number"),
            (&["--jobs", "0", "a"], "--jobs needs a number"),
            (&["--seconds", "0", "a"], "--seconds is 1 to 86400"),
            (&["--settle", "86401", "a"], "--settle is 0 to 86400"),
            (&["--settle", "0.5", "a"], "--settle needs a number"),
            (&["--expect", "-1", "a"], "--expect needs a number"),
            (&["--jsn", "a"], "unknown option --jsn"),
            (&["--json=yes", "a"], "unknown option --json=yes"),
            (&["-j", "a"], "unknown option -j"),
        ] {
            let message = parsed(words).expect_err("bad usage");
            assert!(message.contains(told), "{words:?}: {message}");
        }
    }
}
