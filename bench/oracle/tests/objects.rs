//! The list that `replay` reads, `crates/replay/data/objects.txt`.

mod list;

use std::collections::BTreeSet;

/// Family, operation, return, and the answer to the step.
type Asked = [i64; 4];

const NO: [i64; 1] = [0];
const YES: [i64; 1] = [1];
const BOTH: [i64; 2] = [0, 1];

#[test]
fn the_list_is_what_the_oracle_prints() {
    list::assert_is_what_the_oracle_prints("objects");
}

#[test]
fn each_step_is_asked_for_each_answer_that_it_can_get() {
    let mut family = -1;
    let mut found = BTreeSet::new();
    for line in list::lines("objects") {
        match line[0] {
            0 => family = line[1],
            2 => {
                found.insert([family, line[1], line[3], line[6]]);
            }
            _ => {}
        }
    }
    assert_eq!(found, every_step());
}

/// Every operation with every return of its family, and the answers that the pair can get.
fn every_step() -> BTreeSet<Asked> {
    let mut steps = BTreeSet::new();
    let mut expect = |family, op, ret, answers: &[i64]| {
        steps.extend(answers.iter().map(|answer| [family, op, ret, *answer]));
    };
    // Register: Write, Read with WriteOk, ReadOk.
    expect(0, 0, 0, &YES);
    expect(0, 0, 1, &NO);
    expect(0, 1, 0, &NO);
    expect(0, 1, 1, &BOTH);
    // Write-once: Write, Read with WriteOk, WriteFail, ReadOk.
    expect(1, 0, 0, &BOTH);
    expect(1, 0, 1, &BOTH);
    expect(1, 0, 2, &NO);
    expect(1, 1, 0, &NO);
    expect(1, 1, 1, &NO);
    expect(1, 1, 2, &BOTH);
    // Stack: Push, Pop, Len with PushOk, PopOk, LenOk.
    expect(2, 0, 0, &YES);
    expect(2, 0, 1, &NO);
    expect(2, 0, 2, &NO);
    expect(2, 1, 0, &NO);
    expect(2, 1, 1, &BOTH);
    expect(2, 1, 2, &NO);
    expect(2, 2, 0, &NO);
    expect(2, 2, 1, &NO);
    expect(2, 2, 2, &BOTH);
    steps
}
