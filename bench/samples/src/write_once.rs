//! The write-once register: a pump's serial number, given once.

use crate::{agreed, Sample, Verdict};
use capture::WriteOnceOp::{Read, Write};
use capture::WriteOnceRet::{ReadOk, WriteFail, WriteOk};
use capture::{Capture, Object};

const FIRST: i32 = 40_117;
const SECOND: i32 = 40_118;

pub fn samples() -> Vec<Sample> {
    vec![first_wins(), conflict()]
}

fn unwritten() -> Capture {
    Capture::of(Object::WriteOnce(None))
}

fn first_wins() -> Sample {
    let capture = unwritten()
        .invret(2, Read, ReadOk(None))
        .invoke(0, Write(FIRST))
        .invoke(1, Write(SECOND))
        .returns(0, WriteFail)
        .returns(1, WriteOk)
        .invret(2, Read, ReadOk(Some(SECOND)));
    agreed(
        "write-once/first-wins.raw",
        "of two overlapping Writes one stores and the other fails, and a Read agrees",
        capture,
        Verdict::Order(&[2, 1, 0, 2]),
    )
}

fn conflict() -> Sample {
    let capture = unwritten()
        .invoke(0, Write(FIRST))
        .invoke(1, Write(SECOND))
        .returns(0, WriteOk)
        .returns(1, WriteOk);
    agreed(
        "write-once/conflict.raw",
        "two overlapping Writes of different values, and both are told that they stored",
        capture,
        Verdict::NoOrder,
    )
}
