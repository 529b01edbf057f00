//! The three objects.

use capture::{
    Object, Op, RegisterOp, RegisterRet, Ret, StackOp, StackRet, WriteOnceOp, WriteOnceRet,
};

/// The object after the operation, and what it returns; for an operation of the object's own family.
pub fn invoke(object: &Object, op: Op) -> (Object, Ret) {
    match (object, op) {
        (Object::Register(value), Op::Register(op)) => {
            let (value, ret) = register(*value, op);
            (Object::Register(value), Ret::Register(ret))
        }
        (Object::WriteOnce(held), Op::WriteOnce(op)) => {
            let (held, ret) = write_once(*held, op);
            (Object::WriteOnce(held), Ret::WriteOnce(ret))
        }
        (Object::Stack(values), Op::Stack(op)) => {
            let (values, ret) = stack(values.clone(), op);
            (Object::Stack(values), Ret::Stack(ret))
        }
        _ => panic!("an operation of another family was recorded"),
    }
}

/// "Write(v) stores, answers WriteOk. Read answers ReadOk(value)."
fn register(value: i32, op: RegisterOp) -> (i32, RegisterRet) {
    match op {
        RegisterOp::Write(v) => (v, RegisterRet::WriteOk),
        RegisterOp::Read => (value, RegisterRet::ReadOk(value)),
    }
}

/// "Write(v) on nothing stores, WriteOk; on an equal value WriteOk; on another value WriteFail, nothing
/// stored. Read answers ReadOk(nothing or value)."
fn write_once(held: Option<i32>, op: WriteOnceOp) -> (Option<i32>, WriteOnceRet) {
    match (op, held) {
        (WriteOnceOp::Write(v), None) => (Some(v), WriteOnceRet::WriteOk),
        (WriteOnceOp::Write(v), Some(other)) if v == other => (held, WriteOnceRet::WriteOk),
        (WriteOnceOp::Write(_), Some(_)) => (held, WriteOnceRet::WriteFail),
        (WriteOnceOp::Read, _) => (held, WriteOnceRet::ReadOk(held)),
    }
}

/// "Push(v) gives PushOk; Pop gives PopOk(top or nothing); Len gives LenOk(n)."
fn stack(mut values: Vec<i32>, op: StackOp) -> (Vec<i32>, StackRet) {
    let ret = match op {
        StackOp::Push(v) => {
            values.push(v);
            StackRet::PushOk
        }
        StackOp::Pop => StackRet::PopOk(values.pop()),
        StackOp::Len => StackRet::LenOk(u32::try_from(values.len()).expect("at most 96 values")),
    };
    (values, ret)
}
