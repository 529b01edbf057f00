//! A history: the events that fresh testers of an object are fed, and the operations that these make up.

use crate::family::Family;
use crate::testers::THREADS;

#[derive(Clone)]
pub enum Event<F: Family> {
    Invoke(u32, F::Op),
    Return(u32, F::Ret),
}

#[derive(Clone)]
pub struct History<F: Family> {
    pub start: F,
    pub events: Vec<Event<F>>,
}

pub struct Operation<F: Family> {
    pub op: F::Op,
    /// The place of its invoke among the events.
    pub invoked: usize,
    /// The place of its return and what that is, unless the operation is in flight.
    pub returned: Option<(usize, F::Ret)>,
}

impl<F: Family> History<F> {
    /// Each thread's operations, unless an event is out of turn: an invoke on a busy thread or a stray return.
    pub fn operations(&self) -> Option<[Vec<Operation<F>>; THREADS as usize]> {
        let mut threads: [Vec<Operation<F>>; THREADS as usize] = Default::default();
        for (place, event) in self.events.iter().enumerate() {
            match event {
                Event::Invoke(thread, op) => {
                    let operations = &mut threads[*thread as usize];
                    if in_flight(operations).is_some() {
                        return None;
                    }
                    operations.push(Operation {
                        op: op.clone(),
                        invoked: place,
                        returned: None,
                    });
                }
                Event::Return(thread, ret) => {
                    let operation = in_flight(&mut threads[*thread as usize])?;
                    operation.returned = Some((place, ret.clone()));
                }
            }
        }
        Some(threads)
    }
}

fn in_flight<F: Family>(operations: &mut [Operation<F>]) -> Option<&mut Operation<F>> {
    let last = operations.last_mut()?;
    last.returned.is_none().then_some(last)
}
