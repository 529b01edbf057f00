//! The captures that chosen files are made of.

use capture::{
    Capture, Object, Op, RegisterOp, RegisterRet, Ret, StackOp, StackRet, WriteOnceOp, WriteOnceRet,
};

/// Trace 3 of document 01, which is trace 14 as a file: T0 invokes Read; T1 writes 66, WriteOk.
pub fn trace_14() -> Capture {
    Capture::of(Object::Register(65))
        .invoke(0, RegisterOp::Read)
        .invret(1, RegisterOp::Write(66), RegisterRet::WriteOk)
}

/// A capture of each family that has each of its operations and returns, with values of one to five bytes.
pub fn of_each_family() -> [Capture; 3] {
    [register(), write_once(), stack()]
}

fn register() -> Capture {
    Capture::of(Object::Register(-1))
        .invoke(0, RegisterOp::Read)
        .invret(7, RegisterOp::Write(i32::MIN), RegisterRet::WriteOk)
        .invret(1, RegisterOp::Read, RegisterRet::ReadOk(i32::MIN))
        .returns(0, RegisterRet::ReadOk(-1))
        .invoke(3, RegisterOp::Write(64))
}

fn write_once() -> Capture {
    Capture::of(Object::WriteOnce(None))
        .invoke(2, WriteOnceOp::Write(64))
        .invoke(5, WriteOnceOp::Write(-65))
        .invret(1, WriteOnceOp::Read, WriteOnceRet::ReadOk(None))
        .returns(2, WriteOnceRet::WriteOk)
        .invret(0, WriteOnceOp::Read, WriteOnceRet::ReadOk(Some(64)))
        .returns(5, WriteOnceRet::WriteFail)
        .invoke(6, WriteOnceOp::Read)
}

fn stack() -> Capture {
    Capture::of(Object::Stack(vec![-65, 1_000_000]))
        .invoke(4, StackOp::Push(64))
        .invret(6, StackOp::Pop, StackRet::PopOk(Some(1_000_000)))
        .returns(4, StackRet::PushOk)
        .invret(0, StackOp::Len, StackRet::LenOk(2))
        .invoke(1, StackOp::Pop)
        .invret(2, StackOp::Pop, StackRet::PopOk(Some(64)))
        .returns(1, StackRet::PopOk(Some(-65)))
        .invret(3, StackOp::Pop, StackRet::PopOk(None))
        .invoke(5, StackOp::Push(i32::MAX))
}

/// A capture of each family that holds as many operations as there is room for, thread 7's last one in flight; with an
/// operation and its return that may follow anywhere.
pub fn full() -> [(Capture, Op, Ret); 3] {
    let two = vec![7, 7];
    [
        of_64(
            Object::Register(7),
            RegisterOp::Read.into(),
            RegisterRet::ReadOk(7).into(),
        ),
        of_64(
            Object::WriteOnce(Some(7)),
            WriteOnceOp::Read.into(),
            WriteOnceRet::ReadOk(Some(7)).into(),
        ),
        of_64(
            Object::Stack(two),
            StackOp::Len.into(),
            StackRet::LenOk(2).into(),
        ),
    ]
}

fn of_64(start: Object, op: Op, ret: Ret) -> (Capture, Op, Ret) {
    let mut capture = Capture::of(start);
    for at in 0..63 {
        capture = capture.invret(at % 8, op, ret);
    }
    (capture.invoke(7, op), op, ret)
}
