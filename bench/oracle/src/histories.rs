//! The list of judged histories: every short one, the least and the greatest, and drawn ones of all sizes, whole
//! or damaged.

mod damage;
mod drawn;
mod every;
mod extremes;
mod history;
mod life;
mod search;
#[cfg(test)]
mod traces;
mod transcript;

use crate::family::Family;
use capture::Random;
use stateright::semantics::register::Register;
use stateright::semantics::write_once_register::WORegister;

pub fn list() -> String {
    [
        family::<Register<i32>>(21),
        family::<WORegister<i32>>(22),
        family::<Vec<i32>>(23),
    ]
    .concat()
}

fn family<F: Family>(seed: u64) -> String {
    let random = &mut Random::new(seed);
    [
        every::text::<F>(random),
        extremes::text::<F>(random),
        drawn::text::<F>(random),
    ]
    .concat()
}
