//! The least and the greatest histories: no event, nothing but operations in flight, full testers.

use super::history::History;
use super::life::{self, End, Shape, ENDS};
use super::transcript;
use crate::family::Family;
use crate::testers::{OPERATIONS, THREADS};
use capture::Random;

pub fn text<F: Family>(random: &mut Random) -> String {
    let mut text: String = F::starts()
        .iter()
        .map(|values| empty::<F>(values))
        .collect();
    for threads in 1..=THREADS as usize {
        text += &life::<F>(in_flight_only(threads), random);
        for end in ENDS {
            text += &life::<F>(full(threads, end), random);
        }
    }
    text
}

fn empty<F: Family>(values: &[i32]) -> String {
    let history = History {
        start: F::holding(values),
        events: Vec::new(),
    };
    transcript::text(&history).expect("no search")
}

fn in_flight_only(threads: usize) -> Shape {
    Shape {
        threads,
        operations: threads,
        end: End::AllInFlight,
        by_neighbours: false,
    }
}

fn full(threads: usize, end: End) -> Shape {
    Shape {
        threads,
        operations: OPERATIONS,
        end,
        by_neighbours: true,
    }
}

/// Draws anew until the search is short.
fn life<F: Family>(shape: Shape, random: &mut Random) -> String {
    loop {
        if let Ok(text) = transcript::text(&life::history::<F>(&shape, random)) {
            return text;
        }
    }
}
