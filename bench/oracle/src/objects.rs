//! The list of answers of bare objects: every step from a few starts, long walks, histories, full stacks.

mod every;
mod full_stack;
mod histories;
mod transcript;
mod walks;

use crate::family::Family;
use capture::Random;
use stateright::semantics::register::Register;
use stateright::semantics::write_once_register::WORegister;

pub fn list() -> String {
    [
        family::<Register<i32>>(1, 10, 40),
        // Once written it hardly changes: many short walks.
        family::<WORegister<i32>>(2, 40, 10),
        family::<Vec<i32>>(3, 10, 40),
        full_stack::answers(&mut Random::new(4)),
    ]
    .concat()
}

fn family<F: Family>(seed: u64, count: usize, length: usize) -> String {
    let random = &mut Random::new(seed);
    [
        every::answers::<F>(),
        walks::answers::<F>(random, count, length),
        histories::answers::<F>(random),
    ]
    .concat()
}
