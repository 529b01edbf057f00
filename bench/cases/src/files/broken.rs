//! Captures with one event that is wrong.

use super::family;
use super::store::honest;
use capture::{Call, Capture, Event, Random};

/// One return is another.
pub fn broken(random: &mut Random) -> Capture {
    let mut capture = honest(random);
    let is_return = |at: &usize| matches!(capture.events[*at].call, Call::Return(_));
    let returns: Vec<usize> = (0..capture.events.len()).filter(is_return).collect();
    if !returns.is_empty() {
        let ret = family::any_return(&capture.start, random);
        capture.events[random.pick(&returns)].call = Call::Return(ret);
    }
    capture
}

/// One event is of a thread above 7.
pub fn high_thread(random: &mut Random) -> Capture {
    let mut capture = honest(random);
    let at = random.below(capture.events.len() + 1);
    let any = 8 + random.below(i32::MAX as usize - 8) as u32;
    let thread = random.pick(&[
        8,
        9,
        15,
        16,
        63,
        64,
        127,
        128,
        255,
        256,
        264,
        i32::MAX as u32,
        any,
    ]);
    let call = any_call(&capture, random);
    capture.events.insert(at, Event { thread, call });
    capture
}

/// An invoke on a busy thread, if there is one.
pub fn second_invoke(random: &mut Random) -> Capture {
    let capture = honest(random);
    let call = Call::Invoke(family::operation(&capture.start, random));
    with_event(capture, true, call, random)
}

/// A return on an idle thread, if there is one.
pub fn stray_return(random: &mut Random) -> Capture {
    let capture = honest(random);
    let call = Call::Return(family::any_return(&capture.start, random));
    with_event(capture, false, call, random)
}

fn any_call(capture: &Capture, random: &mut Random) -> Call {
    if random.chance(1, 2) {
        Call::Invoke(family::operation(&capture.start, random))
    } else {
        Call::Return(family::any_return(&capture.start, random))
    }
}

/// The capture with this call put in anywhere, on a thread that is busy there, or on one that is idle.
fn with_event(mut capture: Capture, busy: bool, call: Call, random: &mut Random) -> Capture {
    let at = random.below(capture.events.len() + 1);
    let threads: Vec<u32> = (0..8)
        .filter(|thread| is_busy(&capture.events[..at], *thread) == busy)
        .collect();
    if !threads.is_empty() {
        let thread = random.pick(&threads);
        capture.events.insert(at, Event { thread, call });
    }
    capture
}

/// Whether the thread has an operation in flight after these events.
pub fn is_busy(events: &[Event], thread: u32) -> bool {
    let last = events.iter().rfind(|event| event.thread == thread);
    last.is_some_and(|event| matches!(event.call, Call::Invoke(_)))
}
