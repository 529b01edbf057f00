//! A history written as lines of numbers, and after it what both testers answer.

use super::history::{Event, History};
use super::search::{search, Longer, Place, Searched, Verdict};
use crate::family::Family;
use crate::line;
use crate::testers::{Model, Steps, Testers, MODELS};

const START: i64 = 0;
const INVOKE: i64 = 1;
const RETURN: i64 = 2;
const VERDICT: i64 = 3;

/// The attempts of a search, at most.
const MOST: u64 = 20_000;

/// The history and its two verdicts, unless one of the searches is too long. The Rust gives the same ones.
pub fn text<F: Family>(history: &History<F>) -> Result<String, Longer> {
    let [sequential, linearizable] = MODELS.map(|model| search(history, model, MOST));
    let searched = [sequential?, linearizable?];
    let mut testers = Testers::new(&history.start);
    let recorded = all_recorded(&mut testers, &history.events);
    let mut text = start(history);
    text.extend(history.events.iter().map(event));
    for (model, searched) in MODELS.into_iter().zip(&searched) {
        let is_valid = !matches!(searched.verdict, Verdict::Invalid);
        assert_eq!(is_valid, recorded, "whether an event is refused");
        let rust = testers.serialized_history(model);
        assert_eq!(
            steps(&searched.verdict),
            rust.map(numbers::<F>),
            "the order"
        );
        text += &verdict(model, searched);
    }
    Ok(text)
}

fn all_recorded<F: Family>(testers: &mut Testers<F>, events: &[Event<F>]) -> bool {
    let mut all = true;
    for event in events {
        all &= match event {
            Event::Invoke(thread, op) => testers.on_invoke(*thread, op.clone()),
            Event::Return(thread, ret) => testers.on_return(*thread, ret.clone()),
        };
    }
    all
}

/// The steps of the order, as numbers. The Rust has none for an invalid history either.
fn steps<F: Family>(verdict: &Verdict<F>) -> Option<Vec<Vec<i64>>> {
    let step = |place: &Place<F>| F::step_numbers(&place.op, &place.ret);
    match verdict {
        Verdict::Invalid | Verdict::NoOrder => None,
        Verdict::Order(order) => Some(order.iter().map(step).collect()),
    }
}

fn numbers<F: Family>(steps: Steps<F>) -> Vec<Vec<i64>> {
    let step = |(op, ret): &(F::Op, F::Ret)| F::step_numbers(op, ret);
    steps.iter().map(step).collect()
}

/// 0 F n v1 … vn
fn start<F: Family>(history: &History<F>) -> String {
    let mut numbers = vec![START, F::NUMBER];
    numbers.extend(line::counted(&history.start.held()));
    line::of(&numbers)
}

/// 1 T OP V or 2 T RET RN RV
fn event<F: Family>(event: &Event<F>) -> String {
    let mut numbers = Vec::new();
    match event {
        Event::Invoke(thread, op) => {
            numbers.extend([INVOKE, (*thread).into()]);
            numbers.extend(F::operation_numbers(op));
        }
        Event::Return(thread, ret) => {
            numbers.extend([RETURN, (*thread).into()]);
            numbers.extend(F::return_numbers(ret));
        }
    }
    line::of(&numbers)
}

/// 3 M A K, and for an order its places: n, n times T OP V RET RN RV
fn verdict<F: Family>(model: Model, searched: &Searched<F>) -> String {
    let attempts = i64::try_from(searched.attempts).expect("attempts");
    let mut numbers = vec![VERDICT, model as i64, attempts];
    match &searched.verdict {
        Verdict::NoOrder => numbers.push(0),
        Verdict::Order(order) => {
            numbers.extend([1, line::count(order.len())]);
            for place in order {
                numbers.push(line::count(place.thread));
                numbers.extend(F::step_numbers(&place.op, &place.ret));
            }
        }
        Verdict::Invalid => numbers.push(2),
    }
    line::of(&numbers)
}
