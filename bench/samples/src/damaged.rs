//! Files that are no whole captures.

use crate::{Sample, Verdict};
use capture::RegisterOp::{Read, Write};
use capture::RegisterRet::{ReadOk, WriteOk};
use capture::{Capture, Object};

pub fn samples() -> Vec<Sample> {
    vec![unknown_operation(), cut_off(), not_a_capture()]
}

fn refused(
    path: &'static str,
    shows: &'static str,
    bytes: Vec<u8>,
    number: u8,
    place: u32,
) -> Sample {
    Sample {
        path,
        shows,
        bytes,
        linearizable: Verdict::Refused(number, place),
        sequential: Verdict::Refused(number, place),
    }
}

fn whole() -> Capture {
    Capture::of(Object::Register(120))
        .invret(0, Write(85), WriteOk)
        .invret(1, Read, ReadOk(85))
}

fn unknown_operation() -> Sample {
    let mut bytes = whole().bytes();
    let place = bytes.len() as u32;
    // Thread 2 invokes operation 2; a register has Write 0 and Read 1.
    bytes.extend([4, 2]);
    refused(
        "damaged/unknown-operation.raw",
        "the last event invokes an operation that a register doesn't have",
        bytes,
        24,
        place,
    )
}

fn cut_off() -> Sample {
    let mut bytes = whole().bytes();
    bytes.pop();
    refused(
        "damaged/cut-off.raw",
        "the file ends within its last event",
        bytes,
        22,
        15,
    )
}

fn not_a_capture() -> Sample {
    refused(
        "damaged/not-a-capture.raw",
        "the file is a text",
        b"dose limit 85 ml/h\n".to_vec(),
        21,
        0,
    )
}
