//! The list that `replay` reads, `crates/replay/data/histories.txt`.

mod judged;
mod list;

use judged::{History, Verdict};

const MODELS: [usize; 2] = [SEQUENTIAL, LINEARIZABLE];
const SEQUENTIAL: usize = 0;
const LINEARIZABLE: usize = 1;

#[test]
fn the_list_is_what_the_oracle_prints() {
    list::assert_is_what_the_oracle_prints("histories");
}

#[test]
fn there_are_thousands_of_histories_in_short_lines() {
    assert!(3600 <= histories().len());
    assert!(list::text("histories").lines().all(|l| l.len() <= 2000));
}

#[test]
fn each_family_and_model_has_each_verdict_a_hundred_times() {
    for family in families() {
        for model in MODELS {
            for verdict in [Verdict::NoOrder, Verdict::Order, Verdict::Invalid] {
                let has = |history: &History| history.judged[model].verdict == verdict;
                assert_count(100, &family, has);
            }
        }
    }
}

#[test]
fn the_models_differ_in_orders_and_in_verdicts_but_one_way_only() {
    for family in families() {
        assert_count(100, &family, |history| {
            history.is(Verdict::Order) && history.judged[0].places != history.judged[1].places
        });
        let verdicts = |history: &History| {
            let [sequential, linearizable] = MODELS.map(|model| history.judged[model].verdict);
            (sequential, linearizable)
        };
        let lifted = (Verdict::Order, Verdict::NoOrder);
        assert_count(20, &family, |history| verdicts(history) == lifted);
        for history in &family {
            let (sequential, linearizable) = verdicts(history);
            assert!(sequential == linearizable || verdicts(history) == lifted);
        }
    }
}

#[test]
fn orders_place_all_or_some_or_none_of_the_operations_in_flight() {
    for family in families() {
        for model in MODELS {
            let is = |wanted: fn(usize, usize) -> bool| {
                move |history: &History| {
                    let placed = placed_in_flight(history, model);
                    placed.is_some_and(|placed| wanted(placed, history.in_flight()))
                }
            };
            assert_count(10, &family, is(|placed, all| 0 < placed && placed == all));
            assert_count(50, &family, is(|placed, all| 0 < placed && placed < all));
            assert_count(100, &family, is(|placed, all| placed == 0 && 0 < all));
            assert_count(1, &family, is(|placed, all| 0 < placed && all == 8));
        }
    }
}

/// How many operations in flight the model's order places.
fn placed_in_flight(history: &History, model: usize) -> Option<usize> {
    let judged = &history.judged[model];
    (judged.verdict == Verdict::Order).then(|| judged.places.len() - history.returned)
}

#[test]
fn histories_have_up_to_8_threads_and_64_operations() {
    for family in families() {
        for threads in 0..=8 {
            assert_count(5, &family, |history| history.threads.len() == threads);
            assert_count(3.min(threads), &family, |history| {
                let full = history.threads.len() == threads && history.invoked == 64;
                full && history.is(Verdict::Order)
            });
        }
        assert_count(1, &family, |history| {
            history.invoked == 64 && history.is(Verdict::NoOrder)
        });
        for operations in 0..=16 {
            assert_count(5, &family, |history| history.invoked == operations);
        }
        assert!(family.iter().all(|history| history.invoked <= 64));
    }
}

#[test]
fn there_are_histories_of_nothing_but_operations_in_flight_on_each_number_of_threads() {
    for family in families() {
        for threads in 0..=8 {
            assert_count(1, &family, |history| {
                history.returned == 0
                    && history.in_flight() == threads
                    && history.is(Verdict::Order)
            });
        }
    }
}

#[test]
fn searches_are_short_and_long() {
    for family in families() {
        for (model, longest) in [(SEQUENTIAL, 10_000), (LINEARIZABLE, 1000)] {
            let attempts = |history: &History| history.judged[model].attempts;
            assert!(family.iter().all(|history| attempts(history) <= 20_000));
            for verdict in [Verdict::Order, Verdict::NoOrder] {
                let has = |history: &History| history.judged[model].verdict == verdict;
                let long =
                    |least| move |history: &History| has(history) && least <= attempts(history);
                assert_count(20, &family, long(10));
                assert_count(5, &family, long(100));
            }
            assert_count(1, &family, |history| longest <= attempts(history));
        }
    }
}

#[test]
fn initial_stacks_hold_up_to_32_values() {
    let [.., stacks] = families();
    assert_eq!(stacks.iter().map(|history| history.held).max(), Some(32));
}

fn assert_count(least: usize, histories: &[History], has: impl Fn(&History) -> bool) {
    let count = histories.iter().filter(|history| has(history)).count();
    assert!(least <= count, "{count} histories only, not {least}");
}

/// The histories of the register, of the write-once register and of the stack.
fn families() -> [Vec<History>; 3] {
    let mut families = [Vec::new(), Vec::new(), Vec::new()];
    for history in histories() {
        families[history.family as usize].push(history);
    }
    families
}

fn histories() -> Vec<History> {
    judged::histories(list::lines("histories"))
}
