//! Threads above 7.

use crate::place::Place;
use crate::proposal::Kind;

const ABOVE: [u32; 4] = [8, 255, 256, u32::MAX];

/// What a thread is raised by: a reading that keeps only its low bits takes it for itself.
const RAISED: [u32; 3] = [8, 1 << 8, 1 << 16];

/// The place with a thread above 7 instead of its own.
pub fn above(place: Place) -> Vec<(Kind, Place)> {
    let above = ABOVE.map(|thread| (Kind::ThreadAbove(thread), Place { thread, ..place }));
    let raised = RAISED.map(|by| {
        let thread = place.thread + by;
        (Kind::ThreadRaised(by), Place { thread, ..place })
    });
    above.into_iter().chain(raised).collect()
}

/// A place of a thread above 7, with the first return of any family.
pub fn put_in() -> [(Kind, Place); 4] {
    ABOVE.map(|thread| (Kind::ThreadPutIn(thread), Place::new(thread, [0, 0, 0])))
}
