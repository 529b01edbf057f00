//! Lines for people.

use super::{End, Told};
use crate::names::shown;
use crate::outcome::{Kept, Verdict};
use kilteshva::Answer;
use std::path::Path;

const GREEN: &str = "\x1b[32m";
const RED: &str = "\x1b[31m";
const PLAIN: &str = "\x1b[0m";

/// What the judge says of a file; the model is named where there is more than one.
pub fn judged(told: &Told, colours: bool) -> String {
    let several = told.judged.answers.len() > 1;
    let model = if several {
        format!(" ({})", told.model)
    } else {
        String::new()
    };
    let verdict = told.verdict;
    format!(
        "{} {}{model}: {}",
        column(verdict.name(), verdict.is_green(), colours),
        shown(told.path),
        explanation(told)
    )
}

/// What the verdict means for this file, and how much there was to judge.
fn explanation(told: &Told) -> String {
    let Some(counts) = told.judged.counts else {
        return told.answer.explanation();
    };
    let counts = amount(counts.operations, counts.events);
    match (told.verdict, told.answer) {
        (Verdict::Empty, _) => {
            format!("no operation was completed, so that nothing was judged; {counts}")
        }
        (Verdict::Unknown, Answer::Order { .. }) => {
            let why = "the order has not the operations of the capture";
            format!("{why}: program and library do not fit; {counts}")
        }
        (_, Answer::Invalid { place, .. } | Answer::Refused { place, .. }) if *place > 0 => {
            format!("{}; {counts} before it", told.answer.explanation())
        }
        _ => format!("{}; {counts}", told.answer.explanation()),
    }
}

/// A file or folder that was not judged.
pub fn other(path: &Path, name: &str, why: &str, colours: bool) -> String {
    format!("{} {}: {why}", column(name, false, colours), shown(path))
}

pub fn summary(end: &End, colours: bool) -> String {
    let tally = end.tally;
    let mut lines = vec![String::new()];
    for model in &end.options.models {
        // The judge's own verdicts are always told, the others where there are any.
        let told = |verdict: &Verdict| {
            let is_rare = matches!(verdict, Verdict::Empty | Verdict::Unknown);
            !is_rare || tally.count(*model, *verdict) > 0
        };
        let verdicts = Verdict::ALL.into_iter().filter(told);
        let counts =
            verdicts.map(|verdict| format!("{} {}", tally.count(*model, verdict), verdict.name()));
        lines.push(format!(
            "{model}: {}",
            counts.collect::<Vec<_>>().join(", ")
        ));
    }
    for kept in Kept::ALL {
        if tally.kept(kept) > 0 {
            lines.push(format!(
                "{} {}",
                tally.kept(kept),
                kept.name().to_lowercase()
            ));
        }
    }
    if tally.skipped > 0 {
        lines.push(format!("{} skipped", tally.skipped));
    }
    if let Some(expected) = tally.missed() {
        let captures = counted(expected, "capture");
        lines.push(format!("expected {captures}, judged {}", tally.captures()));
    }
    if let Some(why) = end.interrupted {
        lines.push(format!("interrupted {why}: not all was judged"));
    }
    let files = counted(tally.files(), "file");
    let judged = format!("{} judged", amount(tally.operations, tally.events));
    lines.push(if tally.is_green() {
        coloured(&format!("green: all of {files}; {judged}"), true, colours)
    } else {
        let red = format!("not green: {} of {files}; {judged}", tally.not_green());
        coloured(&red, false, colours)
    });
    lines.join("\n")
}

/// So many operations and events.
fn amount(operations: usize, events: usize) -> String {
    let operations = counted(operations, "operation");
    format!("{operations}, {}", counted(events, "event"))
}

fn counted(count: usize, what: &str) -> String {
    match count {
        1 => format!("1 {what}"),
        _ => format!("{count} {what}s"),
    }
}

/// The verdict as the first column.
fn column(verdict: &str, green: bool, colours: bool) -> String {
    coloured(&format!("{verdict:<10}"), green, colours)
}

fn coloured(text: &str, green: bool, colours: bool) -> String {
    match (colours, green) {
        (false, _) => text.to_string(),
        (true, true) => format!("{GREEN}{text}{PLAIN}"),
        (true, false) => format!("{RED}{text}{PLAIN}"),
    }
}

#[cfg(test)]
mod tests {
    use super::*;

    #[test]
    fn colours_are_for_the_verdict_alone() {
        let line = |colours| other(Path::new("a"), "Changed", "why", colours);
        assert_eq!(line(false), "Changed    a: why");
        assert_eq!(line(true), "\x1b[31mChanged   \x1b[0m a: why");
    }

    #[test]
    fn one_is_one() {
        assert_eq!(amount(1, 2), "1 operation, 2 events");
        assert_eq!(amount(0, 1), "0 operations, 1 event");
    }
}
