//! A family of objects as the lists need it: its numbers, and where its inputs come from.

mod register;
mod stack;
mod write_once;

use capture::Random;
use stateright::semantics::SequentialSpec;
use std::fmt::Debug;

pub use stack::ROOM;

/// The values that are tried one by one.
pub const VALUES: [i32; 5] = [0, 1, -1, i32::MIN, i32::MAX];

pub trait Family: SequentialSpec<Op: Clone + Debug, Ret: Clone + Debug> + Clone {
    /// The family's number in the lists.
    const NUMBER: i64;

    /// The values of the objects from which every step is tried.
    fn starts() -> Vec<Vec<i32>>;
    /// A start of a longer walk.
    fn random_start(random: &mut Random) -> Vec<i32>;
    /// The object that holds these values.
    fn holding(values: &[i32]) -> Self;
    /// The values that the object holds.
    fn held(&self) -> Vec<i32>;

    /// Every operation, with each of the values to try.
    fn operations() -> Vec<Self::Op>;
    /// Every return, with each of the values to try.
    fn returns() -> Vec<Self::Ret>;
    /// A few operations, each with the returns to try for it, for every history of a few events.
    fn few() -> Vec<(Self::Op, Vec<Self::Ret>)>;
    /// An operation that this object has room for.
    fn random_operation(&self, random: &mut Random) -> Self::Op;
    /// A return of any kind, most often a wrong one.
    fn random_return(&self, random: &mut Random) -> Self::Ret;

    /// OP V
    fn operation_numbers(op: &Self::Op) -> [i64; 2];
    /// RET RN RV
    fn return_numbers(ret: &Self::Ret) -> [i64; 3];
    /// OP V RET RN RV
    fn step_numbers(op: &Self::Op, ret: &Self::Ret) -> Vec<i64> {
        let (op, ret) = (Self::operation_numbers(op), Self::return_numbers(ret));
        [&op[..], &ret[..]].concat()
    }
}

/// A return's numbers where it may carry a value: how many it carries, and which.
fn carried(number: i64, value: Option<i32>) -> [i64; 3] {
    match value {
        None => [number, 0, 0],
        Some(v) => [number, 1, v.into()],
    }
}
