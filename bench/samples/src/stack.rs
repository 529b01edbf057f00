//! The stack: alarms that wait for a nurse, the latest first.

use crate::{agreed, Sample, Verdict};
use capture::StackOp::{Len, Pop, Push};
use capture::StackRet::{LenOk, PopOk, PushOk};
use capture::{Capture, Object};

pub fn samples() -> Vec<Sample> {
    vec![overlap(), oldest_first()]
}

fn overlap() -> Sample {
    let capture = Capture::of(Object::Stack(vec![7]))
        .invoke(0, Push(8))
        .invret(1, Pop, PopOk(Some(7)))
        .invret(1, Pop, PopOk(None))
        .returns(0, PushOk)
        .invret(2, Len, LenOk(1));
    agreed(
        "stack/overlap.raw",
        "a stack is found empty while a Push is under way, and holds one value afterwards",
        capture,
        Verdict::Order(&[1, 1, 0, 2]),
    )
}

fn oldest_first() -> Sample {
    let capture = Capture::of(Object::Stack(vec![]))
        .invret(0, Push(7), PushOk)
        .invret(0, Push(8), PushOk)
        .invret(0, Pop, PopOk(Some(7)));
    agreed(
        "stack/oldest-first.raw",
        "Pop gives the value that was pushed first, as a queue would",
        capture,
        Verdict::NoOrder,
    )
}
