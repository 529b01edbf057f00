//! A plain reader of corpus files, which feeds a tester of stateright's as it reads: what a program that has no
//! port would do.
//!
//! It refuses what it can't read and what the tester refuses, but says neither why nor where.

use crate::family::Family;
use crate::testers::Tester;
use capture::OPENING;
use kilteshva::Model;
use stateright::semantics::register::{Register, RegisterOp, RegisterRet};
use stateright::semantics::vec::{VecOp, VecRet};
use stateright::semantics::{
    ConsistencyTester, LinearizabilityTester, SequentialConsistencyTester, SequentialSpec,
};

/// A family that can be read.
pub trait Read: SequentialSpec {
    /// The object's number in a header.
    const OBJECT: u32;

    fn start(reader: &mut Reader) -> Option<Self>;
    fn op(reader: &mut Reader) -> Option<Self::Op>;
    fn ret(reader: &mut Reader) -> Option<Self::Ret>;
}

/// What is left of a file.
pub struct Reader<'a>(&'a [u8]);

/// The tester fed with a file's events, if the file is one of this family and all of it is recorded.
pub fn load<F: Read + Family>(file: &[u8], model: Model) -> Option<Tester<F>> {
    let mut reader = Reader(file.strip_prefix(&OPENING)?);
    if reader.number()? != F::OBJECT {
        return None;
    }
    let start = F::start(&mut reader)?;
    Some(match model {
        Model::Sequential => {
            Tester::Sequential(feed(SequentialConsistencyTester::new(start), reader)?)
        }
        Model::Linearizable => {
            Tester::Linearizable(feed(LinearizabilityTester::new(start), reader)?)
        }
        _ => return None,
    })
}

fn feed<F: Read, T: ConsistencyTester<u32, F>>(mut tester: T, mut reader: Reader) -> Option<T> {
    while !reader.0.is_empty() {
        let head = reader.number()?;
        let thread = head / 2;
        if head % 2 == 0 {
            tester.on_invoke(thread, F::op(&mut reader)?).ok()?;
        } else {
            tester.on_return(thread, F::ret(&mut reader)?).ok()?;
        }
    }
    Some(tester)
}

impl Reader<'_> {
    /// Seven bits to a byte, lowest group first, top bit set when more follow; of a fifth byte four bits.
    fn number(&mut self) -> Option<u32> {
        let mut number = 0;
        for shift in [0, 7, 14, 21, 28] {
            let (byte, rest) = self.0.split_first()?;
            self.0 = rest;
            if shift == 28 && *byte > 15 {
                return None;
            }
            number |= u32::from(byte & 127) << shift;
            if *byte < 128 {
                return Some(number);
            }
        }
        None
    }

    /// 2v stands for v, and -2v - 1 for a v below zero.
    fn value(&mut self) -> Option<i32> {
        let number = self.number()?;
        Some((number >> 1) as i32 ^ -((number & 1) as i32))
    }

    /// Nothing, or a value.
    fn maybe(&mut self) -> Option<Option<i32>> {
        match self.number()? {
            0 => Some(None),
            1 => Some(Some(self.value()?)),
            _ => None,
        }
    }
}

impl Read for Register<i32> {
    const OBJECT: u32 = 0;

    fn start(reader: &mut Reader) -> Option<Self> {
        Some(Register(reader.value()?))
    }

    fn op(reader: &mut Reader) -> Option<Self::Op> {
        match reader.number()? {
            0 => Some(RegisterOp::Write(reader.value()?)),
            1 => Some(RegisterOp::Read),
            _ => None,
        }
    }

    fn ret(reader: &mut Reader) -> Option<Self::Ret> {
        match reader.number()? {
            0 => Some(RegisterRet::WriteOk),
            1 => Some(RegisterRet::ReadOk(reader.value()?)),
            _ => None,
        }
    }
}

impl Read for Vec<i32> {
    const OBJECT: u32 = 2;

    fn start(reader: &mut Reader) -> Option<Self> {
        let count = reader.number()?;
        (0..count).map(|_| reader.value()).collect()
    }

    fn op(reader: &mut Reader) -> Option<Self::Op> {
        match reader.number()? {
            0 => Some(VecOp::Push(reader.value()?)),
            1 => Some(VecOp::Pop),
            2 => Some(VecOp::Len),
            _ => None,
        }
    }

    fn ret(reader: &mut Reader) -> Option<Self::Ret> {
        match reader.number()? {
            0 => Some(VecRet::PushOk),
            1 => Some(VecRet::PopOk(reader.maybe()?)),
            2 => Some(VecRet::LenOk(reader.number()? as usize)),
            _ => None,
        }
    }
}

#[cfg(test)]
mod tests {
    use super::*;
    use crate::files::{bytes, Written};
    use crate::histories::{histories, History};
    use crate::testers::MODELS;

    fn drawn<F: Family>() -> Vec<History<F>> {
        histories(40, 12, 1)
    }

    /// Reading a file comes to what feeding its history does.
    fn reads_all<F: Written + Read>() {
        for history in drawn::<F>() {
            let file = bytes(&history);
            for model in MODELS {
                let order = |tester: Tester<F>| format!("{:?}", tester.order());
                let read = load(&file, model).map(order);
                assert_eq!(read, Some(order(Tester::fed(model, &history))));
            }
        }
    }

    /// A file that ends in the middle of an event is refused.
    fn refuses_cuts<F: Written + Read>() {
        for history in drawn::<F>() {
            let file = bytes(&history);
            let load = |at: &usize| load::<F>(&file[..*at], Model::Sequential).is_some();
            let whole = (0..=file.len()).filter(load).count();
            assert_eq!(whole, history.0.len() + 1);
        }
    }

    #[test]
    fn files_are_read_whole() {
        reads_all::<Register<i32>>();
        reads_all::<Vec<i32>>();
        refuses_cuts::<Register<i32>>();
        refuses_cuts::<Vec<i32>>();
    }

    #[test]
    fn numbers_are_those_of_document_01() {
        let number = |bytes: &[u8]| Reader(bytes).number();
        assert_eq!(number(&[0x82, 0x01]), Some(130));
        assert_eq!(number(&[0x81, 0x80, 0x80, 0x80, 0x00]), Some(1));
        assert_eq!(number(&[0xff, 0xff, 0xff, 0xff, 0x0f]), Some(u32::MAX));
        assert_eq!(number(&[0x80, 0x80, 0x80, 0x80, 0x10]), None);
        assert_eq!(number(&[0x80]), None);
        let value = |bytes: &[u8]| Reader(bytes).value();
        assert_eq!(value(&[0x84, 0x01]), Some(66));
        assert_eq!(value(&[0x01]), Some(-1));
        assert_eq!(value(&[0xff, 0xff, 0xff, 0xff, 0x0f]), Some(i32::MIN));
    }

    #[test]
    fn other_files_are_refused() {
        let load = |file: &[u8]| load::<Vec<i32>>(file, Model::Linearizable).is_some();
        assert!(load(b"RAW1\x02\x00\x00\x01"));
        for file in [
            &b"RAW2\x02\x00"[..],
            b"RAW1\x00\x00",
            b"RAW1\x02\x00\x00\x03",
            b"RAW1\x02\x00\x01\x00",
            b"RAW1\x02\x00\x00\x01\x00\x01",
        ] {
            assert!(!load(file), "{file:?}");
        }
    }
}
