//! Objects, operations and returns at random.

use capture::{
    Object, Op, Random, RegisterOp, RegisterRet, Ret, StackOp, StackRet, WriteOnceOp, WriteOnceRet,
};

/// How many values a stack starts with, at most.
const INITIAL_STACK: usize = 32;

/// An object of any family.
pub fn start(random: &mut Random) -> Object {
    match random.below(3) {
        0 => Object::Register(random.value()),
        1 => Object::WriteOnce(held(random)),
        _ => {
            let many = random.below(INITIAL_STACK + 1);
            let count = random.pick(&[0, 0, 1, 2, many]);
            Object::Stack((0..count).map(|_| random.value()).collect())
        }
    }
}

/// An operation of the object's family.
pub fn operation(object: &Object, random: &mut Random) -> Op {
    let value = random.value();
    match object {
        Object::Register(_) => {
            let ops = [RegisterOp::Write(value), RegisterOp::Read];
            random.pick(&ops).into()
        }
        Object::WriteOnce(_) => {
            let ops = [WriteOnceOp::Write(value), WriteOnceOp::Read];
            random.pick(&ops).into()
        }
        Object::Stack(_) => {
            let push = StackOp::Push(value);
            let ops = [push, push, StackOp::Pop, StackOp::Pop, StackOp::Len];
            random.pick(&ops).into()
        }
    }
}

/// Any return of the object's family, most often a wrong one.
pub fn any_return(object: &Object, random: &mut Random) -> Ret {
    let value = random.value();
    let held = held(random);
    match object {
        Object::Register(_) => {
            let rets = [RegisterRet::WriteOk, RegisterRet::ReadOk(value)];
            random.pick(&rets).into()
        }
        Object::WriteOnce(_) => {
            let (ok, fail) = (WriteOnceRet::WriteOk, WriteOnceRet::WriteFail);
            random.pick(&[ok, fail, WriteOnceRet::ReadOk(held)]).into()
        }
        Object::Stack(_) => {
            let length = random.pick(&[0, 1, 2, 32, 96, u32::MAX]);
            let (push, len) = (StackRet::PushOk, StackRet::LenOk(length));
            random.pick(&[push, StackRet::PopOk(held), len]).into()
        }
    }
}

fn held(random: &mut Random) -> Option<i32> {
    let value = random.value();
    random.pick(&[None, Some(value), Some(value)])
}
