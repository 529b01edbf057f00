//! Damage done to a history: a return that is changed, an event out of turn.

use super::history::{Event, History};
use crate::family::Family;
use crate::testers::THREADS;
use capture::Random;

/// The events that stay after one out of turn, at most.
const AFTER: usize = 3;

/// Another return of any kind in the place of one of the returns, if there is one.
pub fn change_a_return<F: Family>(history: &mut History<F>, random: &mut Random) {
    let returns = history.events.iter_mut().filter_map(|event| match event {
        Event::Invoke(..) => None,
        Event::Return(_, ret) => Some(ret),
    });
    let mut returns: Vec<&mut F::Ret> = returns.collect();
    if returns.is_empty() {
        return;
    }
    let at = random.below(returns.len());
    let ret = &mut *returns[at];
    let before = ret.clone();
    while *ret == before {
        *ret = history.start.random_return(random);
    }
}

/// Ends the history in an invoke on a busy thread or in a return of one that is not, and a few events more,
/// which all are refused.
pub fn put_out_of_turn<F: Family>(history: &mut History<F>, random: &mut Random) {
    let at = random.below(history.events.len() + 1);
    let thread = random.below(THREADS as usize) as u32;
    let is_busy = history.events[..at]
        .iter()
        .rev()
        .find_map(|event| match event {
            Event::Invoke(other, _) => (*other == thread).then_some(true),
            Event::Return(other, _) => (*other == thread).then_some(false),
        })
        .unwrap_or(false);
    let event = match is_busy {
        true => Event::Invoke(thread, history.start.random_operation(random)),
        false => Event::Return(thread, history.start.random_return(random)),
    };
    history.events.insert(at, event);
    let after = random.below(AFTER + 1);
    history.events.truncate(at + 1 + after);
}
