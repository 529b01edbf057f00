//! The Rust's two testers, fed a history.

use crate::family::Family;
use crate::histories::{Event, History};
use kilteshva::Model;
use stateright::semantics::{
    ConsistencyTester, LinearizabilityTester, SequentialConsistencyTester,
};
use std::hint::black_box;

pub const MODELS: [Model; 2] = [Model::Linearizable, Model::Sequential];

pub enum Tester<F: Family> {
    Sequential(SequentialConsistencyTester<u32, F>),
    Linearizable(LinearizabilityTester<u32, F>),
}

impl<F: Family> Tester<F> {
    pub fn fed(model: Model, history: &History<F>) -> Self {
        let object = F::fresh();
        match model {
            Model::Sequential => {
                Tester::Sequential(feed(SequentialConsistencyTester::new(object), history))
            }
            Model::Linearizable => {
                Tester::Linearizable(feed(LinearizabilityTester::new(object), history))
            }
            other => panic!("the Rust has no tester for {other}"),
        }
    }

    pub fn order(&self) -> Option<Vec<(F::Op, F::Ret)>> {
        match self {
            Tester::Sequential(tester) => tester.serialized_history(),
            Tester::Linearizable(tester) => tester.serialized_history(),
        }
    }

    pub fn has_order(&self) -> bool {
        black_box(self.order()).is_some()
    }
}

fn feed<F: Family, T: ConsistencyTester<u32, F>>(mut tester: T, history: &History<F>) -> T {
    for event in &history.0 {
        let recorded = match event {
            Event::Invoke(thread, op) => tester.on_invoke(*thread, op.clone()).is_ok(),
            Event::Return(thread, ret) => tester.on_return(*thread, ret.clone()).is_ok(),
        };
        assert!(recorded, "a history that is recorded throughout");
    }
    tester
}
