//! The text that stands beside the samples.

use crate::Sample;

const OPENING: &str = "\
# Samples

Small captures to try the judge on, green and red, of each object. `./judge`, at the top of the repository, judges this
folder. Values of registers are dose limits in ml/h; an order says whose operation comes next.

| file | what it shows | linearizable | sequential |
|---|---|---|---|
";

const ENDING: &str = "
The files and this page are made by `cargo run --offline --quiet --package samples`, run in `bench`, and `cargo test`
there holds them to what it makes.
";

/// The page `README.md`: a line for each sample.
pub fn readme(samples: &[Sample]) -> String {
    let line = |sample: &Sample| {
        format!(
            "| `{}` | {} | {} | {} |\n",
            sample.path, sample.shows, sample.linearizable, sample.sequential
        )
    };
    let lines: String = samples.iter().map(line).collect();
    [OPENING, &lines, ENDING].concat()
}
