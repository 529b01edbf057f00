//! A short run meets everything that there is to meet.

use differ::run::run;
use reference::host_call;

#[test]
fn every_refusal_of_a_file_is_met() {
    let tally = run(host_call, 20_000, 1, drop);
    assert_eq!((tally.cases, tally.differ), (20_000, 0));
    for number in [2, 4, 5, 6, 20, 21, 22, 23, 24, 25] {
        assert!(tally.refusals(number) >= 20, "refusal {number}");
    }
    assert!(tally.with_rust >= 2_000);
}
