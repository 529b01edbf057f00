//! Every history of a few events of two threads, none of them out of turn, from the default object.

use super::history::{Event, History};
use super::transcript;
use crate::family::Family;
use crate::testers::THREADS;
use capture::Random;

const EVENTS: usize = 4;

pub fn text<F: Family>(random: &mut Random) -> String {
    let mut all = vec![Grown::<F>::new()];
    let mut shorter = 0;
    for _ in 0..EVENTS {
        let longer: Vec<Grown<F>> = all[shorter..].iter().flat_map(Grown::longer).collect();
        shorter = all.len();
        all.extend(longer);
    }
    let written = |grown: Grown<F>| {
        let history = grown.on(two_threads(random));
        transcript::text(&history).expect("a short search")
    };
    all.into_iter().map(written).collect()
}

/// Events of the threads 0 and 1, and for each of these which of the few operations it has in flight.
#[derive(Clone)]
struct Grown<F: Family> {
    events: Vec<Event<F>>,
    in_flight: [Option<usize>; 2],
}

impl<F: Family> Grown<F> {
    fn new() -> Self {
        Grown {
            events: Vec::new(),
            in_flight: [None; 2],
        }
    }

    /// These events and one more, in all ways.
    fn longer(&self) -> Vec<Self> {
        let few = F::few();
        let mut all = Vec::new();
        for thread in 0..2 {
            match self.in_flight[thread as usize] {
                None => {
                    for (index, (op, _)) in few.iter().enumerate() {
                        let invoke = Event::Invoke(thread, op.clone());
                        all.push(self.with(invoke, thread, Some(index)));
                    }
                }
                Some(index) => {
                    for ret in &few[index].1 {
                        let answer = Event::Return(thread, ret.clone());
                        all.push(self.with(answer, thread, None));
                    }
                }
            }
        }
        all
    }

    fn with(&self, event: Event<F>, thread: u32, in_flight: Option<usize>) -> Self {
        let mut longer = self.clone();
        longer.events.push(event);
        longer.in_flight[thread as usize] = in_flight;
        longer
    }

    /// The history on these threads instead of 0 and 1.
    fn on(self, threads: [u32; 2]) -> History<F> {
        let moved = |event| match event {
            Event::Invoke(thread, op) => Event::Invoke(threads[thread as usize], op),
            Event::Return(thread, ret) => Event::Return(threads[thread as usize], ret),
        };
        History {
            start: F::holding(&F::starts()[0]),
            events: self.events.into_iter().map(moved).collect(),
        }
    }
}

/// The lower one first: the search tries them in this order.
fn two_threads(random: &mut Random) -> [u32; 2] {
    let threads = THREADS as usize;
    let upper = 1 + random.below(threads - 1);
    [random.below(upper) as u32, upper as u32]
}
