//! The numbers of a family: its objects, operations and returns in the lines of a list, its returns in an order.

use crate::object::{Object, Operation, Return};

#[derive(Clone, Copy, Debug, Eq, Ord, PartialEq, PartialOrd)]
pub enum Family {
    Register,
    WriteOnce,
    Stack,
}

pub const FAMILIES: [Family; 3] = [Family::Register, Family::WriteOnce, Family::Stack];

impl Family {
    /// F
    pub fn of(number: i64) -> Self {
        FAMILIES[usize::try_from(number).expect("a family")]
    }

    /// n v1 … vn
    pub fn object(self, counted: &[i64]) -> Object {
        let values: Vec<i32> = counted[1..].iter().copied().map(value).collect();
        match (self, values.as_slice()) {
            (Family::Register, [held]) => Object::Register(*held),
            (Family::WriteOnce, []) => Object::WriteOnce(None),
            (Family::WriteOnce, [held]) => Object::WriteOnce(Some(*held)),
            (Family::Stack, held) => Object::Stack(held.to_vec()),
            _ => panic!("an object"),
        }
    }

    /// OP V
    pub fn operation(self, number: i64, carried: i64) -> Operation {
        match (self, number) {
            (Family::Register | Family::WriteOnce, 0) => Operation::Write(value(carried)),
            (Family::Register | Family::WriteOnce, 1) => Operation::Read,
            (Family::Stack, 0) => Operation::Push(value(carried)),
            (Family::Stack, 1) => Operation::Pop,
            (Family::Stack, 2) => Operation::Len,
            _ => panic!("an operation"),
        }
    }

    /// RET RN RV
    pub fn returned(self, number: i64, count: i64, carried: i64) -> Return {
        let maybe = (count == 1).then(|| value(carried));
        match (self, number, count) {
            (Family::Register | Family::WriteOnce, 0, 0) => Return::WriteOk,
            (Family::Register, 1, 1) => Return::ReadOk(maybe),
            (Family::WriteOnce, 1, 0) => Return::WriteFail,
            (Family::WriteOnce, 2, _) => Return::ReadOk(maybe),
            (Family::Stack, 0, 0) => Return::PushOk,
            (Family::Stack, 1, _) => Return::PopOk(maybe),
            (Family::Stack, 2, 1) => Return::LenOk(u32::try_from(carried).expect("a length")),
            _ => panic!("a return"),
        }
    }

    /// The three words of a return in an order: its number, how many values it carries, and the value as a corpus
    /// file writes it.
    pub fn words(self, returned: Return) -> [u32; 3] {
        let read = if self == Family::Register { 1 } else { 2 };
        match returned {
            Return::WriteOk | Return::PushOk => [0, 0, 0],
            Return::WriteFail => [1, 0, 0],
            Return::ReadOk(value) => maybe(read, value),
            Return::PopOk(value) => maybe(1, value),
            Return::LenOk(length) => [2, 1, length],
        }
    }

    /// How many returns the family has.
    pub fn returns(self) -> u32 {
        match self {
            Family::Register => 2,
            Family::WriteOnce | Family::Stack => 3,
        }
    }
}

fn value(number: i64) -> i32 {
    i32::try_from(number).expect("a value")
}

fn maybe(number: u32, value: Option<i32>) -> [u32; 3] {
    value.map_or([number, 0, 0], |value| [number, 1, sent(value)])
}

/// A signed value v as a corpus file writes it: 2v when v ≥ 0 and -2v - 1 when negative.
fn sent(value: i32) -> u32 {
    let value = i64::from(value);
    let number = if value >= 0 {
        2 * value
    } else {
        -2 * value - 1
    };
    u32::try_from(number).expect("below 2^32")
}
