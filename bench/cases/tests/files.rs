//! Captures of every size and of any degree of overlap are made.

use capture::{Call, Random};
use cases::files::Kind;
use reference::load;

#[test]
fn captures_are_of_every_size() {
    let mut threads = [false; 9];
    let mut operations = [false; 65];
    let mut in_flight = [false; 9];
    let mut random = Random::new(1);
    for _ in 0..10_000 {
        for file in Kind::Honest.files(&mut random) {
            let loaded = load(&file);
            assert_eq!(loaded.number, 0);
            let held = &loaded.tester.operations;
            let pending = held.iter().filter(|op| op.returned.is_none()).count();
            let used = (0..8).filter(|thread| held.iter().any(|op| op.thread == *thread));
            threads[used.count()] = true;
            operations[held.len()] = true;
            in_flight[pending] = true;
        }
    }
    assert!(threads
        .iter()
        .chain(&operations)
        .chain(&in_flight)
        .all(|met| *met));
}

#[test]
fn some_captures_overlap_nowhere_and_some_all_along() {
    let mut random = Random::new(2);
    let mut most = [0; 9];
    for _ in 0..1_000 {
        for file in Kind::Honest.files(&mut random) {
            let mut busy = 0_usize;
            let mut highest = 0;
            for event in load(&file).events {
                match event.call {
                    Call::Invoke(_) => busy += 1,
                    Call::Return(_) => busy -= 1,
                }
                highest = highest.max(busy);
            }
            most[highest] += 1;
        }
    }
    assert!(most.iter().all(|captures| *captures >= 5), "{most:?}");
}
