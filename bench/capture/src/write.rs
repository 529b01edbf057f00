//! A capture as the bytes of a corpus file: four opening bytes, then numbers.

use crate::{
    Call, Capture, Event, Object, Op, RegisterOp, RegisterRet, Ret, StackOp, StackRet, WriteOnceOp,
    WriteOnceRet,
};

/// What a corpus file opens with.
pub const OPENING: [u8; 4] = [0x52, 0x41, 0x57, 0x31];

impl Capture {
    /// The corpus file, with each number in its shortest form.
    pub fn bytes(&self) -> Vec<u8> {
        let numbers = self.numbers().into_iter().flat_map(shortest);
        OPENING.into_iter().chain(numbers).collect()
    }

    /// The numbers that stand after the opening bytes.
    pub fn numbers(&self) -> Vec<u32> {
        let mut numbers = start(&self.start);
        numbers.extend(self.events.iter().flat_map(Event::numbers));
        numbers
    }
}

impl Event {
    /// The event's numbers: thread and kind of event, operation or return, what that carries.
    pub fn numbers(&self) -> Vec<u32> {
        let twice = self.thread.checked_mul(2).expect("a thread of 31 bits");
        match self.call {
            Call::Invoke(op) => [vec![twice], operation(op)].concat(),
            Call::Return(ret) => [vec![twice + 1], returned(ret)].concat(),
        }
    }
}

/// A number as bytes: seven bits to a byte, lowest group first, top bit set when more follow.
pub fn shortest(number: u32) -> Vec<u8> {
    padded(number, 1)
}

/// A number as at least this many bytes, with groups of zero after its own.
pub fn padded(number: u32, bytes: usize) -> Vec<u8> {
    let mut groups = vec![(number & 127) as u8];
    let mut rest = number >> 7;
    while rest > 0 || groups.len() < bytes {
        groups.push((rest & 127) as u8);
        rest >>= 7;
    }
    let last = groups.len() - 1;
    groups[..last].iter_mut().for_each(|group| *group |= 128);
    groups
}

/// A signed value as a number: 2v, or -2v - 1 when it is negative.
pub fn signed(value: i32) -> u32 {
    let twice = 2 * i64::from(value);
    let number = if value >= 0 { twice } else { -twice - 1 };
    u32::try_from(number).expect("twice a value of 32 bits")
}

fn start(object: &Object) -> Vec<u32> {
    match object {
        Object::Register(value) => vec![0, signed(*value)],
        Object::WriteOnce(held) => [vec![1], flagged(*held)].concat(),
        Object::Stack(values) => {
            let count = u32::try_from(values.len()).expect("a count of 32 bits");
            let values = values.iter().map(|value| signed(*value));
            [2, count].into_iter().chain(values).collect()
        }
    }
}

fn operation(op: Op) -> Vec<u32> {
    match op {
        Op::Register(RegisterOp::Write(v)) => vec![0, signed(v)],
        Op::Register(RegisterOp::Read) => vec![1],
        Op::WriteOnce(WriteOnceOp::Write(v)) => vec![0, signed(v)],
        Op::WriteOnce(WriteOnceOp::Read) => vec![1],
        Op::Stack(StackOp::Push(v)) => vec![0, signed(v)],
        Op::Stack(StackOp::Pop) => vec![1],
        Op::Stack(StackOp::Len) => vec![2],
    }
}

fn returned(ret: Ret) -> Vec<u32> {
    match ret {
        Ret::Register(RegisterRet::WriteOk) => vec![0],
        Ret::Register(RegisterRet::ReadOk(v)) => vec![1, signed(v)],
        Ret::WriteOnce(WriteOnceRet::WriteOk) => vec![0],
        Ret::WriteOnce(WriteOnceRet::WriteFail) => vec![1],
        Ret::WriteOnce(WriteOnceRet::ReadOk(held)) => [vec![2], flagged(held)].concat(),
        Ret::Stack(StackRet::PushOk) => vec![0],
        Ret::Stack(StackRet::PopOk(top)) => [vec![1], flagged(top)].concat(),
        Ret::Stack(StackRet::LenOk(n)) => vec![2, n],
    }
}

/// Nothing is the flag 0; a value is the flag 1 and the value.
fn flagged(value: Option<i32>) -> Vec<u32> {
    match value {
        None => vec![0],
        Some(v) => vec![1, signed(v)],
    }
}

#[cfg(test)]
mod tests {
    use super::*;

    #[test]
    fn numbers_are_groups_of_seven_bits() {
        assert_eq!(shortest(0), [0]);
        assert_eq!(shortest(127), [0x7f]);
        assert_eq!(shortest(128), [0x80, 0x01]);
        assert_eq!(shortest(300), [0xac, 0x02]);
        assert_eq!(shortest(u32::MAX), [0xff, 0xff, 0xff, 0xff, 0x0f]);
    }

    #[test]
    fn padding_adds_groups_of_zero() {
        assert_eq!(padded(1, 3), [0x81, 0x80, 0x00]);
        assert_eq!(padded(300, 1), shortest(300));
    }

    #[test]
    fn signed_values_alternate() {
        let sent = [0, -1, 1, i32::MAX, i32::MIN].map(signed);
        assert_eq!(sent, [0, 1, 2, u32::MAX - 1, u32::MAX]);
        assert_eq!(shortest(signed(i32::MIN)), [0xff, 0xff, 0xff, 0xff, 0x0f]);
    }

    #[test]
    fn trace_14_has_the_bytes_of_document_01() {
        let capture = Capture::of(Object::Register(65))
            .invoke(0, RegisterOp::Read)
            .invret(1, RegisterOp::Write(66), RegisterRet::WriteOk);
        let expected = [
            0x52, 0x41, 0x57, 0x31, 0x00, 0x82, 0x01, 0x00, 0x01, 0x02, 0x00, 0x84, 0x01, 0x03,
            0x00,
        ];
        assert_eq!(capture.bytes(), expected);
    }
}
