//! Histories of all sizes: whole, with a return changed, or with an event out of turn.

use super::damage::{change_a_return, put_out_of_turn};
use super::history::History;
use super::life::{self, End, Shape, ENDS};
use super::transcript;
use crate::family::Family;
use crate::testers::{OPERATIONS, THREADS};
use capture::Random;
use std::ops::RangeInclusive;

#[derive(Clone, Copy)]
enum Fate {
    Whole,
    ReturnChanged,
    OutOfTurn,
}

const FATES: [Fate; 5] = [
    Fate::Whole,
    Fate::ReturnChanged,
    Fate::Whole,
    Fate::ReturnChanged,
    Fate::OutOfTurn,
];

pub fn text<F: Family>(random: &mut Random) -> String {
    [
        histories::<F>(14, 1..=6, random),
        histories::<F>(18, 7..=16, random),
        histories::<F>(5, 17..=OPERATIONS, random),
        histories::<F>(1, OPERATIONS..=OPERATIONS, random),
    ]
    .concat()
}

/// So many for each fate and end.
fn histories<F: Family>(count: usize, sizes: RangeInclusive<usize>, random: &mut Random) -> String {
    let mut text = String::new();
    for _ in 0..count {
        for fate in FATES {
            for end in ENDS {
                text += &history::<F>(fate, end, &sizes, random);
            }
        }
    }
    text
}

/// Draws anew, another size too, until the search is short.
fn history<F: Family>(
    fate: Fate,
    end: End,
    sizes: &RangeInclusive<usize>,
    random: &mut Random,
) -> String {
    loop {
        let shape = shape(end, sizes, random);
        let mut history: History<F> = life::history(&shape, random);
        match fate {
            Fate::Whole => {}
            Fate::ReturnChanged => change_a_return(&mut history, random),
            Fate::OutOfTurn => put_out_of_turn(&mut history, random),
        }
        if let Ok(text) = transcript::text(&history) {
            return text;
        }
    }
}

fn shape(end: End, sizes: &RangeInclusive<usize>, random: &mut Random) -> Shape {
    let operations = sizes.start() + random.below(sizes.end() - sizes.start() + 1);
    Shape {
        threads: 1 + random.below(operations.min(THREADS as usize)),
        operations,
        end,
        by_neighbours: random.below(2) == 0,
    }
}
