//! The register: a dose limit in ml/h, which clients write and read.

use crate::{agreed, Sample, Verdict};
use capture::RegisterOp::{Read, Write};
use capture::RegisterRet::{ReadOk, WriteOk};
use capture::{Capture, Object};

/// The limit that holds at the start, and the lower one that is to replace it.
const OLD: i32 = 120;
const NEW: i32 = 85;

pub fn samples() -> Vec<Sample> {
    vec![
        trace_14(),
        limit_lowered(),
        eight_clients(),
        stale_limit(),
        unwritten_limit(),
        unanswered_write(),
        limit_flickers(),
        second_call(),
        stray_answer(),
    ]
}

fn limit() -> Capture {
    Capture::of(Object::Register(OLD))
}

fn trace_14() -> Sample {
    let capture = Capture::of(Object::Register(65))
        .invoke(0, Read)
        .invret(1, Write(66), WriteOk);
    agreed(
        "register/trace-14.raw",
        "trace 14 of document 01: a Read that got no answer, placed before the Write that it overlaps",
        capture,
        Verdict::Order(&[0, 1]),
    )
}

fn limit_lowered() -> Sample {
    let capture = limit()
        .invret(1, Read, ReadOk(OLD))
        .invret(0, Write(NEW), WriteOk)
        .invret(1, Read, ReadOk(NEW))
        .invret(2, Read, ReadOk(NEW));
    agreed(
        "register/limit-lowered.raw",
        "the limit is lowered from 120 to 85, and whoever asks afterwards is told 85",
        capture,
        Verdict::Order(&[1, 0, 1, 2]),
    )
}

fn eight_clients() -> Sample {
    let mut capture = limit().invoke(0, Write(NEW));
    for thread in 1..8 {
        capture = capture.invoke(thread, Read);
    }
    // The odd ones see the old limit still, the even ones the new one already.
    for thread in 1..8 {
        let seen = if thread % 2 == 1 { OLD } else { NEW };
        capture = capture.returns(thread, ReadOk(seen));
    }
    agreed(
        "register/eight-clients.raw",
        "seven Reads overlap a Write, and some see the old limit and some the new",
        capture.returns(0, WriteOk),
        Verdict::Order(&[1, 3, 5, 7, 0, 2, 4, 6]),
    )
}

fn stale_limit() -> Sample {
    let capture = limit()
        .invret(0, Write(NEW), WriteOk)
        .invret(1, Read, ReadOk(OLD));
    Sample {
        linearizable: Verdict::NoOrder,
        ..agreed(
            "register/stale-limit.raw",
            "the limit is lowered to 85, and a client that asks afterwards is still told 120: caught by real time \
             alone",
            capture,
            Verdict::Order(&[1, 0]),
        )
    }
}

fn unwritten_limit() -> Sample {
    let capture = limit()
        .invoke(0, Write(NEW))
        .invret(1, Read, ReadOk(850))
        .returns(0, WriteOk);
    agreed(
        "register/unwritten-limit.raw",
        "a client is told 850, which nobody wrote",
        capture,
        Verdict::NoOrder,
    )
}

fn unanswered_write() -> Sample {
    let capture = limit()
        .invoke(0, Write(NEW))
        .invret(1, Read, ReadOk(OLD))
        .invret(2, Read, ReadOk(NEW));
    agreed(
        "register/unanswered-write.raw",
        "a Write in flight, placed: it got no answer, but a client was told its value",
        capture,
        Verdict::Order(&[1, 0, 2]),
    )
}

fn limit_flickers() -> Sample {
    let capture = limit()
        .invoke(0, Write(NEW))
        .invret(1, Read, ReadOk(NEW))
        .invret(1, Read, ReadOk(OLD));
    agreed(
        "register/limit-flickers.raw",
        "a client is told the value of a Write in flight, and then the old one again",
        capture,
        Verdict::NoOrder,
    )
}

fn second_call() -> Sample {
    let capture = limit()
        .invret(1, Read, ReadOk(OLD))
        .invoke(0, Read)
        .invoke(0, Write(NEW));
    agreed(
        "register/second-call.raw",
        "a client calls again before its first call is answered",
        capture,
        Verdict::Invalid(4, 15),
    )
}

fn stray_answer() -> Sample {
    let capture = limit()
        .invret(0, Write(NEW), WriteOk)
        .returns(1, ReadOk(NEW));
    agreed(
        "register/stray-answer.raw",
        "a client is answered that has not called",
        capture,
        Verdict::Invalid(5, 13),
    )
}
