//! Histories as the bytes of corpus files.

use crate::family::Family;
use crate::histories::{self, History};
use capture::{Call, Capture, Event, Object, Op, Ret};
use capture::{RegisterOp, RegisterRet, StackOp, StackRet};
use stateright::semantics::register::{self, Register};
use stateright::semantics::vec::{VecOp, VecRet};

/// A family with the words of corpus files for its objects, operations and returns.
pub trait Written: Family {
    fn object(self) -> Object;
    fn op(op: &Self::Op) -> Op;
    fn ret(ret: &Self::Ret) -> Ret;
}

pub fn bytes<F: Written>(history: &History<F>) -> Vec<u8> {
    let mut capture = Capture::of(F::fresh().object());
    capture.events = history.0.iter().map(event).collect();
    capture.bytes()
}

fn event<F: Written>(event: &histories::Event<F>) -> Event {
    match event {
        histories::Event::Invoke(thread, op) => Event {
            thread: *thread,
            call: Call::Invoke(F::op(op)),
        },
        histories::Event::Return(thread, ret) => Event {
            thread: *thread,
            call: Call::Return(F::ret(ret)),
        },
    }
}

impl Written for Register<i32> {
    fn object(self) -> Object {
        Object::Register(self.0)
    }

    fn op(op: &Self::Op) -> Op {
        match op {
            register::RegisterOp::Write(v) => RegisterOp::Write(*v).into(),
            register::RegisterOp::Read => RegisterOp::Read.into(),
        }
    }

    fn ret(ret: &Self::Ret) -> Ret {
        match ret {
            register::RegisterRet::WriteOk => RegisterRet::WriteOk.into(),
            register::RegisterRet::ReadOk(v) => RegisterRet::ReadOk(*v).into(),
        }
    }
}

impl Written for Vec<i32> {
    fn object(self) -> Object {
        Object::Stack(self)
    }

    fn op(op: &Self::Op) -> Op {
        match op {
            VecOp::Push(v) => StackOp::Push(*v).into(),
            VecOp::Pop => StackOp::Pop.into(),
            VecOp::Len => StackOp::Len.into(),
        }
    }

    fn ret(ret: &Self::Ret) -> Ret {
        match ret {
            VecRet::PushOk => StackRet::PushOk.into(),
            VecRet::PopOk(top) => StackRet::PopOk(*top).into(),
            VecRet::LenOk(n) => StackRet::LenOk(u32::try_from(*n).expect("a small length")).into(),
        }
    }
}
