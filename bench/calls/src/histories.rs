//! Drawn histories: four threads share the operations evenly, and all of them return. Every second
//! history is broken: one return is changed, and linearizability has no order for it.

use crate::family::Family;
use crate::random::{next, pick};
use crate::testers::Tester;
use kilteshva::Model;

/// The seed of all that is timed.
pub const SEED: u64 = 2026;

/// A history whose search takes more attempts than this has no place in a growth table.
pub const LONG: u64 = 250_000;

const THREADS: usize = 4;

/// How often, of a hundred times, an operation is begun while others are under way: about six in ten
/// operations then overlap with another thread's.
const BEGIN: usize = 21;

pub enum Event<F: Family> {
    Invoke(u32, F::Op),
    Return(u32, F::Ret),
}

pub struct History<F: Family>(pub Vec<Event<F>>);

impl<F: Family> History<F> {
    /// Changes the return of a random event, if that is one which tells of the object.
    fn change(&mut self, random: &mut u64) {
        let at = next(random) % self.0.len();
        if let Event::Return(_, ret) = &mut self.0[at] {
            if let Some(changed) = F::changed(ret, random) {
                *ret = changed;
            }
        }
    }
}

/// This many histories of so many operations.
pub fn histories<F: Family>(count: usize, operations: usize, seed: u64) -> Vec<History<F>> {
    let mut random = seed;
    let draw = |at| match at % 2 {
        0 => good(operations, &mut random),
        _ => broken(operations, &mut random),
    };
    (0..count).map(draw).collect()
}

/// Some more, none of them broken: no search is needed to draw them, however many operations they have.
pub fn unbroken<F: Family>(count: usize, operations: usize, seed: u64) -> Vec<History<F>> {
    let mut random = seed;
    (0..count).map(|_| good(operations, &mut random)).collect()
}

/// Draws anew until the change takes every order away.
fn broken<F: Family>(operations: usize, random: &mut u64) -> History<F> {
    loop {
        let mut history = good(operations, random);
        history.change(random);
        if !Tester::fed(Model::Linearizable, &history).has_order() {
            return history;
        }
    }
}

/// What a thread is at.
enum Thread<F: Family> {
    Idle,
    Invoked(F::Op),
    Answered(F::Ret),
}

/// A real object is worked on: each operation takes its effect at some time between its invoke and its
/// return, so that there is an order.
fn good<F: Family>(operations: usize, random: &mut u64) -> History<F> {
    let mut object = F::fresh();
    let mut left = [operations / THREADS; THREADS];
    let mut threads: [Thread<F>; THREADS] = std::array::from_fn(|_| Thread::Idle);
    let mut events = Vec::new();
    while events.len() < 2 * operations {
        let (idle, busy): (Vec<usize>, Vec<usize>) =
            (0..THREADS).partition(|at| matches!(threads[*at], Thread::Idle));
        let able: Vec<usize> = idle.into_iter().filter(|at| left[*at] > 0).collect();
        if busy.is_empty() || !able.is_empty() && next(random) % 100 < BEGIN {
            let at = pick(random, &able);
            let op = F::random_operation(random);
            left[at] -= 1;
            threads[at] = Thread::Invoked(op.clone());
            events.push(Event::Invoke(at as u32, op));
            continue;
        }
        let at = pick(random, &busy);
        threads[at] = match std::mem::replace(&mut threads[at], Thread::Idle) {
            Thread::Idle => unreachable!("a thread that is busy"),
            Thread::Invoked(op) => Thread::Answered(object.invoke(&op)),
            Thread::Answered(ret) => {
                events.push(Event::Return(at as u32, ret));
                Thread::Idle
            }
        };
    }
    History(events)
}
