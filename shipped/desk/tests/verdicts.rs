//! The samples, judged: lines, JSON and exit status.

mod common;

use common::{folder, run, run_in, slow, write, EMPTY, GREEN, RED};
use samples::{all, Sample, Verdict};

fn sample(path: &str) -> Sample {
    let found = all().into_iter().find(|sample| sample.path == path);
    found.expect(path)
}

/// How a line on a sample begins, and how its explanation does.
fn begins(verdict: Verdict) -> (&'static str, String) {
    match verdict {
        Verdict::Order(threads) => {
            let threads: Vec<String> = threads.iter().map(u8::to_string).collect();
            ("Order      ", format!(": threads {} (", threads.join(" ")))
        }
        Verdict::NoOrder => ("No order   ", ": no one-at-a-time order".to_string()),
        Verdict::Invalid(number, place) => ("Invalid    ", refusal(number, place)),
        Verdict::Refused(number, place) => ("Refused    ", refusal(number, place)),
    }
}

fn refusal(number: u8, place: u32) -> String {
    match place {
        0 => format!(": refusal {number} in the header: "),
        _ => format!(": refusal {number} in the event at byte {place}: "),
    }
}

/// The lines on samples: one on the folder's page comes first.
fn sample_lines(ran: &common::Ran) -> Vec<&str> {
    let lines = ran.file_lines();
    assert_eq!(
        lines[0],
        "Skipped    samples/README.md: a note to the reader, by its name"
    );
    lines[1..].to_vec()
}

#[test]
fn every_sample_gets_its_line_in_order() {
    let ran = run(&["samples"]);
    let lines = sample_lines(&ran);
    assert_eq!(lines.len(), all().len());
    for (line, sample) in lines.iter().zip(all()) {
        let (verdict, explanation) = begins(sample.linearizable);
        let start = format!("{verdict}samples/{}{explanation}", sample.path);
        assert!(line.starts_with(&start), "{line}");
    }
    assert_eq!(ran.status, 1);
}

#[test]
fn both_models_get_a_line_each() {
    let ran = run(&["--model", "both", "samples"]);
    let lines = sample_lines(&ran);
    assert_eq!(lines.len(), 2 * all().len());
    for (pair, sample) in lines.chunks(2).zip(all()) {
        for (line, (model, verdict)) in pair.iter().zip([
            ("linearizable", sample.linearizable),
            ("sequential", sample.sequential),
        ]) {
            let (verdict, explanation) = begins(verdict);
            let start = format!("{verdict}samples/{} ({model}){explanation}", sample.path);
            assert!(line.starts_with(&start), "{line}");
        }
    }
}

#[test]
fn a_stale_limit_is_red_for_one_model_only() {
    let path = "samples/register/stale-limit.raw";
    assert_eq!(run(&[path]).status, 1);
    assert_eq!(run(&["--model", "sequential", path]).status, 0);
    assert_eq!(run(&["--model", "both", path]).status, 1);
    for words in [["both", "sequential"], ["sequential", "both"]] {
        let twice = run(&["--model", words[0], "--model", words[1], path]);
        assert_eq!((twice.status, twice.stdout.as_str()), (2, ""));
        assert!(twice.stderr.contains("--model is given twice"));
    }
}

#[test]
fn green_is_zero_and_every_red_is_one() {
    for sample in all() {
        let path = format!("samples/{}", sample.path);
        let green = matches!(sample.linearizable, Verdict::Order(_));
        assert_eq!(run(&[&path]).status, i32::from(!green), "{path}");
    }
}

/// The table of exit statuses, in README.md and in the command's help.
#[test]
fn the_exit_status_says_the_worst_of_all_files() {
    let top = folder("status");
    write(&top, "green", GREEN);
    write(&top, "red", RED);
    write(&top, "invalid", &[EMPTY, &[1, 0]].concat());
    write(&top, "refused", b"text");
    write(&top, "undecided", &slow(3));
    write(&top, "empty", EMPTY);
    for (files, status) in [
        (&["green"][..], 0),
        (&["green", "green"], 0),
        (&["red"], 1),
        (&["invalid"], 1),
        (&["refused"], 1),
        (&["green", "red"], 1),
        (&["undecided"], 3),
        (&["green", "undecided"], 3),
        (&["undecided", "red"], 1),
        (&["undecided", "invalid"], 1),
        (&["refused", "undecided"], 1),
        (&["empty"], 2),
        (&["green", "empty"], 2),
        (&["red", "empty"], 2),
        (&["none"], 2),
        (&["green", "none"], 2),
        (&["undecided", "none"], 2),
        (&["red", "none"], 2),
        (&["/dev/null", "red"], 2),
        (&["--what", "green"], 2),
        (&[], 2),
    ] {
        let words = [&["--budget=1000"], files].concat();
        let ran = run_in(&top, &words);
        assert_eq!(ran.status, status, "{files:?}: {}", ran.stdout);
        let json = run_in(&top, &[&["--json"], &words[..]].concat());
        assert_eq!(json.status, status, "{files:?}");
        assert_eq!(
            json.stdout.contains("\"summary\":{\"green\":true,"),
            status == 0
        );
    }
}

#[test]
fn the_summary_counts() {
    let ran = run(&["samples"]);
    let count = |is: fn(Verdict) -> bool| all().iter().filter(|s| is(s.linearizable)).count();
    let order = count(|verdict| matches!(verdict, Verdict::Order(_)));
    let summary = format!(
        "linearizable: {order} Order, {} No order, 0 Undecided, {} Invalid, {} Refused",
        count(|verdict| verdict == Verdict::NoOrder),
        count(|verdict| matches!(verdict, Verdict::Invalid(..))),
        count(|verdict| matches!(verdict, Verdict::Refused(..))),
    );
    let files = all().len();
    // Of the eleven that were judged; the lines say it one by one.
    let judged = ran
        .file_lines()
        .into_iter()
        .filter(|line| !line.contains("before it"));
    let (mut operations, mut events) = (0, 0);
    for line in judged.skip(1) {
        let counts = line.rsplit("; ").next().expect("counts");
        let numbers: Vec<usize> = counts
            .split(' ')
            .filter_map(|word| word.parse().ok())
            .collect();
        operations += numbers[0];
        events += numbers[1];
    }
    assert!(operations > 30 && events > 60);
    let not_green = files - order;
    let last = format!(
        "not green: {not_green} of {files} files; {operations} operations, {events} events judged"
    );
    assert_eq!(ran.lines()[files + 1..], ["", &summary, "1 skipped", &last]);
}

#[test]
fn a_short_budget_is_undecided_and_no_red() {
    let path = "samples/register/trace-14.raw";
    let short = run(&["--budget", "1", path]);
    let line = format!("Undecided  {path}: a budget of 1 attempt does not cover the search; 2 operations, 3 events");
    assert_eq!((short.status, short.lines()[0]), (3, line.as_str()));
    let exact = run(&["--budget=2", path]);
    let line = format!("Order      {path}: threads 0 1 (2 attempts); 2 operations, 3 events");
    assert_eq!((exact.status, exact.lines()[0]), (0, line.as_str()));
}

#[test]
fn a_refusal_tells_what_stands_before_it() {
    for (path, counts) in [
        (
            "samples/register/second-call.raw",
            "; 2 operations, 3 events before it",
        ),
        (
            "samples/damaged/cut-off.raw",
            "; 2 operations, 3 events before it",
        ),
        (
            "samples/damaged/not-a-capture.raw",
            "; 0 operations, 0 events",
        ),
    ] {
        let ran = run(&[path]);
        assert!(ran.lines()[0].ends_with(counts), "{}", ran.stdout);
        assert!(ran.last_line().ends_with("; 0 operations, 0 events judged"));
    }
}

#[test]
fn json_has_an_object_a_line() {
    let ran = run(&["--json", "samples"]);
    let lines = ran.lines();
    assert_eq!(lines.len(), all().len() + 2);
    for (line, sample) in lines[1..].iter().zip(all()) {
        let verdict = match sample.linearizable {
            Verdict::Order(_) => "\"verdict\":\"order\",\"green\":true,\"attempts\":".to_string(),
            Verdict::NoOrder => {
                "\"verdict\":\"no-order\",\"green\":false,\"attempts\":".to_string()
            }
            Verdict::Invalid(number, place) => red("invalid", number, place),
            Verdict::Refused(number, place) => red("refused", number, place),
        };
        let start = format!(
            "{{\"format\":1,\"file\":\"samples/{}\",\"model\":\"linearizable\",\"budget\":1000000000,{verdict}",
            sample.path
        );
        assert!(line.starts_with(&start), "{line}");
        assert!(line.ends_with('}'));
    }
    let summary = "{\"format\":1,\"summary\":{\"green\":false,\"status\":1,\"interrupted\":null,\"files\":16,\"not_green\":10,";
    assert!(lines[all().len() + 1].starts_with(summary));
    assert_eq!(ran.status, 1);
}

fn red(verdict: &str, number: u8, place: u32) -> String {
    format!("\"verdict\":\"{verdict}\",\"green\":false,\"refusal\":{number},\"place\":{place},\"meaning\":")
}

#[test]
fn json_gives_the_order_the_counts_and_the_file() {
    let path = "samples/register/trace-14.raw";
    assert_eq!(
        sample("register/trace-14.raw").linearizable,
        Verdict::Order(&[0, 1])
    );
    let ran = run(&["--json", "--quiet", "--budget", "2", path]);
    assert_eq!((ran.status, ran.stdout.as_str()), (0, ""));
    let ran = run(&["--json", "--budget=7", path]);
    let digest = "046a55bff3707452b76f42837c5dd904628f653cd1b2e2d2a66bb0636f2cbb47";
    let line = format!(
        "{{\"format\":1,\"file\":\"{path}\",\"model\":\"linearizable\",\"budget\":7,\"verdict\":\"order\",\"green\":true,\
         \"attempts\":2,\"order\":[0, 1],\"operations\":2,\"completed\":1,\"events\":3,\"bytes\":15,\"sha256\":\"{digest}\",\
         \"seconds\":0."
    );
    assert!(ran.lines()[0].starts_with(&line), "{}", ran.stdout);
    let library = format!("\"library\":\"{}\"}}}}", kilteshva::library_digest());
    assert!(ran.last_line().ends_with(&library), "{}", ran.stdout);
}

#[test]
fn the_version_names_library_and_program() {
    let ran = run(&["--version"]);
    let version = env!("CARGO_PKG_VERSION");
    let library = kilteshva::library_digest();
    assert_eq!(library.len(), 64);
    let program = kilteshva::PROGRAM_DIGEST.unwrap_or("built by hand");
    let told = format!("kilteshva {version}\nlibrary {library}\nprogram {program}\n");
    assert_eq!((ran.status, ran.stdout), (0, told));
}

#[test]
fn quiet_prints_what_is_not_green() {
    let loud = run(&["samples"]);
    let quiet = run(&["--quiet", "samples"]);
    let red = loud
        .file_lines()
        .into_iter()
        .filter(|line| !line.starts_with("Order "));
    assert_eq!(quiet.lines(), red.collect::<Vec<_>>());
    assert_eq!(quiet.status, 1);
}

#[test]
fn nothing_but_text_is_printed_where_there_is_no_terminal() {
    let ran = run(&["samples"]);
    assert!(!ran.stdout.contains('\x1b'));
    assert_eq!(ran.stderr, "");
}
