//! Both testers, fed the same events. Each event has one outcome: they answer alike and count alike.

use crate::family::Family;
use stateright::semantics::{
    ConsistencyTester, LinearizabilityTester, SequentialConsistencyTester, SequentialSpec,
};

/// Threads are numbered from 0 up to one less than this.
pub const THREADS: u32 = 8;

/// A tester of the port holds at most this many operations: none of the list is asked to hold more.
pub const OPERATIONS: usize = 64;

#[derive(Clone, Copy)]
pub enum Model {
    Sequential = 0,
    Linearizable = 1,
}

pub const MODELS: [Model; 2] = [Model::Sequential, Model::Linearizable];

/// The operations of an order, each with its return.
pub type Steps<F> = Vec<(<F as SequentialSpec>::Op, <F as SequentialSpec>::Ret)>;

pub struct Testers<F: Family> {
    linearizability: LinearizabilityTester<u32, F>,
    sequential: SequentialConsistencyTester<u32, F>,
}

impl<F: Family> Testers<F> {
    pub fn new(start: &F) -> Self {
        Testers {
            linearizability: LinearizabilityTester::new(start.clone()),
            sequential: SequentialConsistencyTester::new(start.clone()),
        }
    }

    pub fn on_invoke(&mut self, thread: u32, op: F::Op) -> bool {
        let first = self.linearizability.on_invoke(thread, op.clone()).is_ok();
        one(first, self.sequential.on_invoke(thread, op).is_ok())
    }

    pub fn on_return(&mut self, thread: u32, ret: F::Ret) -> bool {
        let first = self.linearizability.on_return(thread, ret.clone()).is_ok();
        one(first, self.sequential.on_return(thread, ret).is_ok())
    }

    pub fn on_invret(&mut self, thread: u32, op: F::Op, ret: F::Ret) -> bool {
        let first = self
            .linearizability
            .on_invret(thread, op.clone(), ret.clone())
            .is_ok();
        one(first, self.sequential.on_invret(thread, op, ret).is_ok())
    }

    pub fn len(&self) -> usize {
        one(self.linearizability.len(), self.sequential.len())
    }

    pub fn serialized_history(&self, model: Model) -> Option<Steps<F>> {
        match model {
            Model::Sequential => self.sequential.serialized_history(),
            Model::Linearizable => self.linearizability.serialized_history(),
        }
    }
}

/// What both testers say.
fn one<T: PartialEq>(linearizability: T, sequential: T) -> T {
    assert!(linearizability == sequential, "the testers disagree");
    linearizability
}
