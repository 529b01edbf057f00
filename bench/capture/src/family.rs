//! The three families of objects: what an object holds, its operations and their returns.
//!
//! In each family's list operations and returns stand in the order of their numbers, from 0.

/// An object, with what it holds; of a stack the values, bottom first.
#[derive(Clone, Debug, PartialEq)]
pub enum Object {
    Register(i32),
    WriteOnce(Option<i32>),
    Stack(Vec<i32>),
}

#[derive(Clone, Copy, Debug, PartialEq)]
pub enum Op {
    Register(RegisterOp),
    WriteOnce(WriteOnceOp),
    Stack(StackOp),
}

#[derive(Clone, Copy, Debug, PartialEq)]
pub enum Ret {
    Register(RegisterRet),
    WriteOnce(WriteOnceRet),
    Stack(StackRet),
}

#[derive(Clone, Copy, Debug, PartialEq)]
pub enum RegisterOp {
    Write(i32),
    Read,
}

#[derive(Clone, Copy, Debug, PartialEq)]
pub enum RegisterRet {
    WriteOk,
    ReadOk(i32),
}

#[derive(Clone, Copy, Debug, PartialEq)]
pub enum WriteOnceOp {
    Write(i32),
    Read,
}

#[derive(Clone, Copy, Debug, PartialEq)]
pub enum WriteOnceRet {
    WriteOk,
    WriteFail,
    ReadOk(Option<i32>),
}

#[derive(Clone, Copy, Debug, PartialEq)]
pub enum StackOp {
    Push(i32),
    Pop,
    Len,
}

#[derive(Clone, Copy, Debug, PartialEq)]
pub enum StackRet {
    PushOk,
    PopOk(Option<i32>),
    LenOk(u32),
}

impl From<RegisterOp> for Op {
    fn from(op: RegisterOp) -> Self {
        Op::Register(op)
    }
}

impl From<WriteOnceOp> for Op {
    fn from(op: WriteOnceOp) -> Self {
        Op::WriteOnce(op)
    }
}

impl From<StackOp> for Op {
    fn from(op: StackOp) -> Self {
        Op::Stack(op)
    }
}

impl From<RegisterRet> for Ret {
    fn from(ret: RegisterRet) -> Self {
        Ret::Register(ret)
    }
}

impl From<WriteOnceRet> for Ret {
    fn from(ret: WriteOnceRet) -> Self {
        Ret::WriteOnce(ret)
    }
}

impl From<StackRet> for Ret {
    fn from(ret: StackRet) -> Self {
        Ret::Stack(ret)
    }
}
