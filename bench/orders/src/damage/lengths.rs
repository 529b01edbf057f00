//! Orders that are too long, or that end in the middle of a place.

use crate::place::{words, Place, WORDS};
use crate::proposal::{Kind, Unanswered};

/// Lengths that no history of at most 64 operations has an order of.
const LONGER: [u32; 4] = [65, 66, 128, 250];

/// The order over and over, up to each of these lengths.
pub fn longer(order: &[Place]) -> Vec<Unanswered> {
    let again = |places: u32| {
        let long: Vec<Place> = order
            .iter()
            .cycle()
            .take(places as usize)
            .copied()
            .collect();
        (Kind::Longer(places), words(&long))
    };
    let lengths = LONGER.into_iter().filter(|_| !order.is_empty());
    lengths.map(again).collect()
}

/// The order with the first words of one more place, and with the last words of its last place cut off.
pub fn half_places(order: &[Place]) -> Vec<Unanswered> {
    let mut halves = Vec::new();
    let whole = words(order);
    let more = order.first().map_or([0; WORDS], |place| place.words());
    for extra in 1..WORDS {
        let kind = Kind::HalfPlace(extra as u32);
        halves.push((kind, [&whole, &more[..extra]].concat()));
        if !order.is_empty() {
            halves.push((kind, whole[..whole.len() - WORDS + extra].to_vec()));
        }
    }
    halves
}
