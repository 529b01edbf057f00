//! Our words for operations and returns, in stateright's.

use capture::{Op, RegisterOp, RegisterRet, Ret, StackOp, StackRet, WriteOnceOp, WriteOnceRet};
use stateright::semantics::register::{self, Register};
use stateright::semantics::vec::{VecOp, VecRet};
use stateright::semantics::write_once_register::{WORegister, WORegisterOp, WORegisterRet};
use stateright::semantics::SequentialSpec;
use std::fmt::Debug;

/// A family of stateright's objects, with its words for our operations and returns.
pub trait Family: SequentialSpec<Op: Clone + Debug, Ret: Clone + Debug> + Clone {
    fn op(op: Op) -> Self::Op;
    fn ret(ret: Ret) -> Self::Ret;
}

const OTHER_FAMILY: &str = "an event of the file's own family";

impl Family for Register<i32> {
    fn op(op: Op) -> Self::Op {
        match op {
            Op::Register(RegisterOp::Write(v)) => register::RegisterOp::Write(v),
            Op::Register(RegisterOp::Read) => register::RegisterOp::Read,
            _ => unreachable!("{OTHER_FAMILY}"),
        }
    }

    fn ret(ret: Ret) -> Self::Ret {
        match ret {
            Ret::Register(RegisterRet::WriteOk) => register::RegisterRet::WriteOk,
            Ret::Register(RegisterRet::ReadOk(v)) => register::RegisterRet::ReadOk(v),
            _ => unreachable!("{OTHER_FAMILY}"),
        }
    }
}

impl Family for WORegister<i32> {
    fn op(op: Op) -> Self::Op {
        match op {
            Op::WriteOnce(WriteOnceOp::Write(v)) => WORegisterOp::Write(v),
            Op::WriteOnce(WriteOnceOp::Read) => WORegisterOp::Read,
            _ => unreachable!("{OTHER_FAMILY}"),
        }
    }

    fn ret(ret: Ret) -> Self::Ret {
        match ret {
            Ret::WriteOnce(WriteOnceRet::WriteOk) => WORegisterRet::WriteOk,
            Ret::WriteOnce(WriteOnceRet::WriteFail) => WORegisterRet::WriteFail,
            Ret::WriteOnce(WriteOnceRet::ReadOk(held)) => WORegisterRet::ReadOk(held),
            _ => unreachable!("{OTHER_FAMILY}"),
        }
    }
}

impl Family for Vec<i32> {
    fn op(op: Op) -> Self::Op {
        match op {
            Op::Stack(StackOp::Push(v)) => VecOp::Push(v),
            Op::Stack(StackOp::Pop) => VecOp::Pop,
            Op::Stack(StackOp::Len) => VecOp::Len,
            _ => unreachable!("{OTHER_FAMILY}"),
        }
    }

    fn ret(ret: Ret) -> Self::Ret {
        match ret {
            Ret::Stack(StackRet::PushOk) => VecRet::PushOk,
            Ret::Stack(StackRet::PopOk(top)) => VecRet::PopOk(top),
            Ret::Stack(StackRet::LenOk(n)) => VecRet::LenOk(n as usize),
            _ => unreachable!("{OTHER_FAMILY}"),
        }
    }
}
