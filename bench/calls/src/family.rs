//! The families that are timed, and what is drawn of them.

use crate::random::pick;
use stateright::semantics::register::{Register, RegisterOp, RegisterRet};
use stateright::semantics::vec::{VecOp, VecRet};
use stateright::semantics::SequentialSpec;
use std::fmt::Debug;

pub trait Family: SequentialSpec<Op: Clone + Debug, Ret: Clone + Debug> + Clone {
    const NAME: &'static str;

    /// The object that a history starts from.
    fn fresh() -> Self;
    fn random_operation(random: &mut u64) -> Self::Op;
    /// Another return of the same kind, if the kind tells anything of the object.
    fn changed(ret: &Self::Ret, random: &mut u64) -> Option<Self::Ret>;
}

/// From 0, with writes of 1 to 5.
impl Family for Register<i32> {
    const NAME: &'static str = "register";

    fn fresh() -> Self {
        Register(0)
    }

    fn random_operation(random: &mut u64) -> Self::Op {
        match pick(random, &[true, false]) {
            true => RegisterOp::Write(pick(random, &[1, 2, 3, 4, 5])),
            false => RegisterOp::Read,
        }
    }

    fn changed(ret: &Self::Ret, random: &mut u64) -> Option<Self::Ret> {
        match ret {
            RegisterRet::WriteOk => None,
            RegisterRet::ReadOk(v) => Some(RegisterRet::ReadOk(other(*v, 5, random))),
        }
    }
}

/// From the empty stack, with pushes of 1 to 9; a Pop that is changed to 0 has found nothing.
impl Family for Vec<i32> {
    const NAME: &'static str = "stack";

    fn fresh() -> Self {
        Vec::new()
    }

    fn random_operation(random: &mut u64) -> Self::Op {
        match pick(random, &[0, 0, 1, 1, 2]) {
            0 => VecOp::Push(pick(random, &[1, 2, 3, 4, 5, 6, 7, 8, 9])),
            1 => VecOp::Pop,
            _ => VecOp::Len,
        }
    }

    fn changed(ret: &Self::Ret, random: &mut u64) -> Option<Self::Ret> {
        match ret {
            VecRet::PushOk => None,
            VecRet::PopOk(v) => {
                let value = other(v.unwrap_or(0), 9, random);
                Some(VecRet::PopOk((value > 0).then_some(value)))
            }
            VecRet::LenOk(n) => Some(VecRet::LenOk(other(*n, 5, random))),
        }
    }
}

/// A value from 0 to the greatest one, but not this one.
fn other<T: Copy + From<u8> + PartialEq>(value: T, greatest: u8, random: &mut u64) -> T {
    let all = (0..=greatest).map(T::from);
    let others: Vec<T> = all.filter(|other| *other != value).collect();
    pick(random, &others)
}
