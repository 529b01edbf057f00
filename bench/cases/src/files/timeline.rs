//! Events at moments of their own.

use super::family;
use super::store::any_use;
use capture::{Call, Capture, Event, Random};
use reference::invoke;
use std::collections::VecDeque;

/// Operations in some one-at-a-time order, each thread's put on a line of time in its own order: sequentially
/// consistent where nothing is left out at the end, and linearizable at times.
pub fn reordered(random: &mut Random) -> Capture {
    let usage = any_use(random);
    let mut capture = Capture::of(family::start(random));
    let mut object = capture.start.clone();
    let mut lines: Vec<VecDeque<Call>> = vec![VecDeque::new(); usage.threads];
    for _ in 0..usage.operations {
        let op = family::operation(&object, random);
        let (after, ret) = invoke(&object, op);
        object = after;
        let thread = random.below(usage.threads);
        lines[thread].extend([Call::Invoke(op), Call::Return(ret)]);
    }
    let shown = match usage.ends_early {
        true => random.below(2 * usage.operations + 1),
        false => 2 * usage.operations,
    };
    while capture.events.len() < shown {
        let thread = random.below(usage.threads);
        if let Some(call) = lines[thread].pop_front() {
            let thread = thread as u32;
            capture.events.push(Event { thread, call });
        }
    }
    capture
}

/// Any events in any order, on a few threads or all; the first that contradicts ends the reading.
pub fn wild(random: &mut Random) -> Capture {
    let mut capture = Capture::of(family::start(random));
    let threads = 1 + random.below(8);
    for _ in 0..random.below(24) {
        let thread = random.below(threads) as u32;
        capture = if random.chance(1, 2) {
            let op = family::operation(&capture.start, random);
            capture.invoke(thread, op)
        } else {
            let ret = family::any_return(&capture.start, random);
            capture.returns(thread, ret)
        };
    }
    capture
}
