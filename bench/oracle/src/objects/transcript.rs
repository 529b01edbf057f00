//! One object at a time, asked through `SequentialSpec`, and each answer written as a line of numbers.

use crate::family::{Family, ROOM};
use crate::line;

const START: i64 = 0;
const INVOKE: i64 = 1;
const STEP: i64 = 2;
const HISTORY: i64 = 3;

pub struct Transcript<F> {
    pub object: F,
    text: String,
}

impl<F: Family> Transcript<F> {
    /// Begins with a new object that holds these values.
    pub fn starting(values: &[i32]) -> Self {
        let mut transcript = Transcript {
            object: F::holding(values),
            text: String::new(),
        };
        transcript.write(vec![START, F::NUMBER]);
        transcript
    }

    pub fn invoke(&mut self, op: F::Op) {
        let mut line = vec![INVOKE];
        line.extend(F::operation_numbers(&op));
        line.extend(F::return_numbers(&self.object.invoke(&op)));
        self.write(line);
    }

    pub fn step(&mut self, op: F::Op, ret: F::Ret) {
        let mut line = vec![STEP];
        line.extend(F::step_numbers(&op, &ret));
        line.push(self.object.is_valid_step(&op, &ret).into());
        self.write(line);
    }

    pub fn history(&mut self, steps: Vec<(F::Op, F::Ret)>) {
        let mut line = vec![HISTORY, line::count(steps.len())];
        line.extend(steps.iter().flat_map(|(op, ret)| F::step_numbers(op, ret)));
        line.push(self.object.is_valid_history(steps).into());
        self.write(line);
    }

    /// What has been written.
    pub fn text(self) -> String {
        self.text
    }

    /// Ends a line by what the object now holds.
    fn write(&mut self, mut numbers: Vec<i64>) {
        let held = self.object.held();
        assert!(
            held.len() <= ROOM,
            "the port's stack has no room for {} values",
            held.len()
        );
        numbers.extend(line::counted(&held));
        self.text += &line::of(&numbers);
    }
}
