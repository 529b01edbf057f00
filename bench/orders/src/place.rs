//! A place of a proposed order, four words of it.

/// The words of a place.
pub const WORDS: usize = 4;

/// A thread and the three words of a return, whether there is such a thread and such a return or not.
#[derive(Clone, Copy, Debug, Eq, Ord, PartialEq, PartialOrd)]
pub struct Place {
    pub thread: u32,
    pub number: u32,
    pub count: u32,
    pub value: u32,
}

impl Place {
    pub fn new(thread: u32, [number, count, value]: [u32; 3]) -> Self {
        Place {
            thread,
            number,
            count,
            value,
        }
    }

    pub fn words(self) -> [u32; WORDS] {
        [self.thread, self.number, self.count, self.value]
    }
}

/// An order's words, its first place first.
pub fn words(order: &[Place]) -> Vec<u32> {
    order.iter().flat_map(|place| place.words()).collect()
}

/// The places of an order's words.
pub fn places(words: &[u32]) -> Vec<Place> {
    let place = |words: &[u32]| Place::new(words[0], [words[1], words[2], words[3]]);
    words.chunks_exact(WORDS).map(place).collect()
}
