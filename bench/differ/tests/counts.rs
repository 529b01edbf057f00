//! What the crate counts in a file, held to the proved library: a file cut behind an event loads, and cut anywhere else it is
//! refused.

use capture::Random;
use cases::files::Kind;
use kilteshva::{count, judge, Answer, Counts, Model};

/// Longer files are left out: each is judged at every length.
const LONGEST: usize = 1_500;

/// What is said of a file without any search.
fn loaded(file: &[u8]) -> Answer {
    judge(file, Model::Linearizable, 0)
}

/// Where a file's events end that are recorded, and before them its header.
fn ends(file: &[u8], read: usize) -> Vec<usize> {
    let is_whole = |cut: &usize| {
        let answer = loaded(&file[..*cut]);
        !matches!(answer, Answer::Invalid { .. } | Answer::Refused { .. })
    };
    (0..=read).filter(is_whole).collect()
}

/// What the library says by refusing or not.
fn counted_by_cutting(file: &[u8], answer: &Answer) -> Counts {
    let read = match answer {
        Answer::Invalid { place, .. } | Answer::Refused { place, .. } => *place as usize,
        _ => file.len(),
    };
    let ends = ends(file, read);
    let mut counts = Counts::default();
    for start in ends.iter().take(ends.len().saturating_sub(1)) {
        let is_return = file[*start] % 2 == 1;
        counts.events += 1;
        counts.operations += usize::from(!is_return);
        counts.completed += usize::from(is_return);
    }
    counts
}

#[test]
fn counts_are_those_of_the_library() {
    let mut random = Random::new(14);
    let (mut files, mut events, mut partly) = (0, 0, 0);
    for kind in Kind::ALL.into_iter().cycle().take(16 * 60) {
        for file in kind.files(&mut random) {
            if file.len() > LONGEST || (kind == Kind::Cut && !random.chance(1, 20)) {
                continue;
            }
            let answer = loaded(&file);
            let counts = counted_by_cutting(&file, &answer);
            assert_eq!(count(&file, &answer), Some(counts), "{file:?}");
            files += 1;
            events += counts.events;
            let refused = matches!(answer, Answer::Invalid { .. } | Answer::Refused { .. });
            partly += usize::from(refused && counts.events > 0);
        }
    }
    assert!(
        files > 800 && events > 10_000 && partly > 200,
        "{files} {events} {partly}"
    );
}

#[test]
fn an_order_is_empty_exactly_if_no_operation_was_completed() {
    let mut random = Random::new(15);
    let mut empty = 0;
    for kind in [Kind::Honest, Kind::Wild, Kind::Cut]
        .into_iter()
        .cycle()
        .take(600)
    {
        for file in kind.files(&mut random) {
            let answer = judge(&file, Model::Sequential, 10_000);
            if let Answer::Order { threads, .. } = &answer {
                let counts = count(&file, &answer).expect("counts");
                assert_eq!(threads.is_empty(), counts.completed == 0, "{file:?}");
                empty += usize::from(threads.is_empty());
            }
        }
    }
    assert!(empty > 50, "{empty}");
}
