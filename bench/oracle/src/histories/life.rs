//! A history that a real object lived through, and which therefore has an order: an operation takes its effect at
//! some time between its invoke and its return; one that stays in flight takes it at some time or never.

use super::history::{Event, History};
use crate::family::Family;
use crate::testers::THREADS;
use capture::Random;

pub struct Shape {
    pub threads: usize,
    /// No fewer than the threads.
    pub operations: usize,
    pub end: End,
    /// Whether only two neighbouring threads work at a time, the lower ones earlier: the search then finds an
    /// order of many operations soon.
    pub by_neighbours: bool,
}

#[derive(Clone, Copy, PartialEq)]
pub enum End {
    AllReturned,
    SomeInFlight,
    AllInFlight,
}

pub const ENDS: [End; 3] = [End::AllReturned, End::SomeInFlight, End::AllInFlight];

pub fn history<F: Family>(shape: &Shape, random: &mut Random) -> History<F> {
    let start = F::holding(&F::random_start(random));
    let mut life = Life {
        object: start.clone(),
        numbers: thread_numbers(shape.threads, random),
        threads: (0..shape.threads).map(|_| Thread::Idle).collect(),
        stuck: vec![false; shape.threads],
        invoked: 0,
        events: Vec::new(),
    };
    let pace = random.pick(&[10, 30, 60, 90]);
    life.main_part(shape, pace, random);
    life.end(shape, random);
    History {
        start,
        events: life.events,
    }
}

/// So many of the threads, in rising order.
fn thread_numbers(count: usize, random: &mut Random) -> Vec<u32> {
    let mut numbers: Vec<u32> = (0..THREADS).collect();
    while numbers.len() > count {
        numbers.remove(random.below(numbers.len()));
    }
    numbers
}

/// What a thread is at.
enum Thread<F: Family> {
    Idle,
    Invoked(F::Op),
    Answered(F::Ret),
}

struct Life<F: Family> {
    object: F,
    /// The threads' numbers, which rise.
    numbers: Vec<u32>,
    threads: Vec<Thread<F>>,
    /// Whether the operation of a thread never returns.
    stuck: Vec<bool>,
    invoked: usize,
    events: Vec<Event<F>>,
}

impl<F: Family> Life<F> {
    /// Invokes all operations but those that the end asks for. Where there is a choice, the next step is an invoke
    /// `pace` times in a hundred.
    fn main_part(&mut self, shape: &Shape, pace: usize, random: &mut Random) {
        loop {
            let idle = self.idle();
            let at_the_end = match shape.end {
                End::AllInFlight => idle.len(),
                _ => 0,
            };
            if self.invoked + at_the_end >= shape.operations {
                return;
            }
            let turn = self.invoked * shape.threads / shape.operations;
            let is_due = |at: &usize| !shape.by_neighbours || (turn..turn + 2).contains(at);
            let due: Vec<usize> = idle.iter().copied().filter(is_due).collect();
            let at_work = self.at_work();
            if at_work.is_empty() || !due.is_empty() && random.below(100) < pace {
                let able = if due.is_empty() { &idle } else { &due };
                let at = random.pick(able);
                self.invoke(at, random);
                let others = self.stuck.iter().filter(|stuck| !**stuck).count() - 1;
                let sticks = shape.end != End::AllReturned && others > 0;
                self.stuck[at] = sticks && random.below(8) == 0;
            } else {
                self.work(random.pick(&at_work));
            }
        }
    }

    fn end(&mut self, shape: &Shape, random: &mut Random) {
        let steps = match shape.end {
            End::AllReturned => usize::MAX,
            End::SomeInFlight => random.below(2 * shape.threads),
            End::AllInFlight => {
                for at in self.idle() {
                    self.invoke(at, random);
                }
                0
            }
        };
        for _ in 0..steps {
            let at_work = self.at_work();
            if at_work.is_empty() {
                return;
            }
            self.work(random.pick(&at_work));
        }
    }

    fn idle(&self) -> Vec<usize> {
        let is_idle = |at: &usize| matches!(self.threads[*at], Thread::Idle);
        (0..self.threads.len()).filter(is_idle).collect()
    }

    /// The threads whose operation can go on.
    fn at_work(&self) -> Vec<usize> {
        let works = |at: &usize| match self.threads[*at] {
            Thread::Idle => false,
            Thread::Invoked(_) => true,
            Thread::Answered(_) => !self.stuck[*at],
        };
        (0..self.threads.len()).filter(works).collect()
    }

    fn invoke(&mut self, at: usize, random: &mut Random) {
        let op = self.object.random_operation(random);
        self.threads[at] = Thread::Invoked(op.clone());
        self.events.push(Event::Invoke(self.numbers[at], op));
        self.invoked += 1;
    }

    /// The thread's operation takes its effect or returns.
    fn work(&mut self, at: usize) {
        self.threads[at] = match std::mem::replace(&mut self.threads[at], Thread::Idle) {
            Thread::Idle => Thread::Idle,
            Thread::Invoked(op) => Thread::Answered(self.object.invoke(&op)),
            Thread::Answered(ret) => {
                self.events.push(Event::Return(self.numbers[at], ret));
                Thread::Idle
            }
        };
    }
}
