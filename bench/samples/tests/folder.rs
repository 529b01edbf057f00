//! The folder holds what is made here and nothing else, and each sample is judged to be what it says.

use reference::{judge, load, Model};
use samples::{all, folder, readme, Sample, Verdict};
use std::collections::BTreeSet;
use std::fs;
use std::path::{Path, PathBuf};

#[test]
fn the_files_are_those_that_are_made() {
    for sample in all() {
        let file = fs::read(folder().join(sample.path)).expect(sample.path);
        assert_eq!(file, sample.bytes, "{}", sample.path);
    }
    let page = fs::read_to_string(folder().join("README.md")).expect("README.md");
    assert_eq!(page, readme(&all()));
}

#[test]
fn there_are_no_other_files() {
    let mut made: BTreeSet<PathBuf> = all()
        .iter()
        .map(|sample| folder().join(sample.path))
        .collect();
    made.insert(folder().join("README.md"));
    assert_eq!(files(&folder()), made);
}

fn files(folder: &Path) -> BTreeSet<PathBuf> {
    let entries = fs::read_dir(folder).expect("a folder");
    let paths = entries.map(|entry| entry.expect("an entry").path());
    let within = |path: PathBuf| match path.is_dir() {
        true => files(&path),
        false => BTreeSet::from([path]),
    };
    paths.flat_map(within).collect()
}

#[test]
fn each_sample_is_judged_to_be_what_it_says() {
    for sample in all() {
        assert_eq!(
            judged(&sample, Model::Linearizable),
            sample.linearizable,
            "{}",
            sample.path
        );
        assert_eq!(
            judged(&sample, Model::Sequential),
            sample.sequential,
            "{}",
            sample.path
        );
    }
}

/// What the plain reading of document 01 says of a sample.
fn judged(sample: &Sample, model: Model) -> Verdict {
    let loaded = load(&sample.bytes);
    match loaded.number {
        0 => match judge(&loaded.tester, model, u64::MAX).verdict {
            reference::Verdict::Order(threads) => Verdict::Order(threads.leak()),
            _ => Verdict::NoOrder,
        },
        4 | 5 => Verdict::Invalid(loaded.number, loaded.place),
        number => Verdict::Refused(number, loaded.place),
    }
}
