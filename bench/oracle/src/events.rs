//! The list of recorded events: every short order, any events whatever, and orderly lives up to a full tester.

mod every;
mod orderly;
mod transcript;
mod wild;

use crate::family::Family;
use capture::Random;
use stateright::semantics::register::Register;
use stateright::semantics::write_once_register::WORegister;

pub fn list() -> String {
    [
        family::<Register<i32>>(11),
        family::<WORegister<i32>>(12),
        family::<Vec<i32>>(13),
    ]
    .concat()
}

fn family<F: Family>(seed: u64) -> String {
    let random = &mut Random::new(seed);
    [
        every::sequences::<F>(random),
        wild::sequences::<F>(random),
        orderly::sequences::<F>(random),
    ]
    .concat()
}
