//! Lines for programs: a JSON object each.

use super::{End, Told};
use crate::digest::hex;
use crate::names::{quoted, untold};
use crate::outcome::{Kept, Verdict};
use kilteshva::{library_digest, Answer};
use std::path::Path;
use std::time::Duration;

/// The version of this form: a program that knows another must not guess.
const FORMAT: u32 = 1;

pub fn judged(told: &Told, budget: u64) -> String {
    let mut fields = file(told.path);
    fields.extend([
        field("model", quoted(&told.model.to_string())),
        field("budget", budget),
        field("verdict", quoted(&name(told.verdict.name()))),
        field("green", told.verdict.is_green()),
    ]);
    match told.answer {
        Answer::Order { threads, attempts } => {
            fields.push(field("attempts", attempts));
            fields.push(field("order", format!("{threads:?}")));
        }
        Answer::NoOrder { attempts } | Answer::Undecided { attempts } => {
            fields.push(field("attempts", attempts));
        }
        Answer::Invalid { refusal, place } | Answer::Refused { refusal, place } => {
            fields.push(field("refusal", refusal.number()));
            fields.push(field("place", place));
            fields.push(field("meaning", quoted(refusal.meaning())));
        }
        other => fields.push(field("meaning", quoted(&other.explanation()))),
    }
    if let Some(counts) = told.judged.counts {
        fields.push(field("operations", counts.operations));
        fields.push(field("completed", counts.completed));
        fields.push(field("events", counts.events));
    }
    fields.push(field("bytes", told.judged.size));
    let digest = told.judged.digest.as_ref();
    fields.push(field(
        "sha256",
        digest.map_or(null(), |digest| quoted(&hex(digest))),
    ));
    fields.push(field("seconds", seconds(told.took)));
    object(&fields)
}

/// A file or folder that was not judged.
pub fn other(path: &Path, verdict: &str, why: &str) -> String {
    let mut fields = file(path);
    fields.extend([
        field("verdict", quoted(&name(verdict))),
        field("green", false),
        field("meaning", quoted(why)),
    ]);
    object(&fields)
}

pub fn summary(end: &End) -> String {
    let tally = end.tally;
    let why = end.interrupted.map(|why| quoted(&why.to_string()));
    let expected = end.options.expected.map(|expected| expected.to_string());
    let mut fields = vec![
        field("green", tally.is_green()),
        field("status", tally.status()),
        field("interrupted", why.unwrap_or_else(null)),
        field("files", tally.files()),
        field("not_green", tally.not_green()),
        field("captures", tally.captures()),
        field("expected", expected.unwrap_or_else(null)),
        field("operations", tally.operations),
        field("events", tally.events),
        field("skipped", tally.skipped),
    ];
    fields.extend(Kept::ALL.map(|kept| field(&name(kept.name()), tally.kept(kept))));
    for model in &end.options.models {
        let count = |verdict: Verdict| field(&name(verdict.name()), tally.count(*model, verdict));
        fields.push(field(&model.to_string(), object(&Verdict::ALL.map(count))));
    }
    fields.extend([
        field("budget", end.options.budget),
        field("seconds", seconds(end.took)),
        field("version", quoted(env!("CARGO_PKG_VERSION"))),
        field("library", quoted(library_digest())),
    ]);
    object(&[field("format", FORMAT), field("summary", object(&fields))])
}

/// What each line begins with.
fn file(path: &Path) -> Vec<String> {
    let mut fields = vec![
        field("format", FORMAT),
        field("file", quoted(&path.to_string_lossy())),
    ];
    fields.extend(untold(path).map(|bytes| field("file_bytes", quoted(&bytes))));
    fields
}

/// A verdict's name as programs have it: `no-order`.
fn name(verdict: &str) -> String {
    verdict.to_lowercase().replace(' ', "-")
}

fn seconds(took: Duration) -> String {
    format!("{}.{:09}", took.as_secs(), took.subsec_nanos())
}

fn null() -> String {
    "null".to_string()
}

fn object(fields: &[String]) -> String {
    format!("{{{}}}", fields.join(","))
}

fn field(name: &str, value: impl ToString) -> String {
    format!("{}:{}", quoted(name), value.to_string())
}

#[cfg(test)]
mod tests {
    use super::*;

    #[test]
    fn times_are_told_to_the_nanosecond() {
        assert_eq!(seconds(Duration::new(3, 50)), "3.000000050");
    }
}
