//! The histories of the list, with the orders that the Rust found for them.

use crate::family::Family;
use crate::legal::{Model, MODELS};
use crate::object::{Object, Operation, Return};
use crate::place::Place;

const START: i64 = 0;
const INVOKE: i64 = 1;
const RETURN: i64 = 2;
const VERDICT: i64 = 3;

/// The numbers of a place of an order that the Rust found: T OP V RET RN RV.
const FOUND: usize = 6;

/// An event of a thread.
pub enum Event {
    Invoke(u32, Operation),
    Return(u32, Return),
}

pub enum Verdict {
    NoOrder,
    Order(Vec<Place>),
    Invalid,
}

pub struct History {
    pub family: Family,
    pub start: Object,
    pub events: Vec<Event>,
    /// What the Rust said, by model; empty where the list does not ask.
    pub verdicts: Vec<Verdict>,
    /// The lines of the start and of the events.
    pub text: String,
}

pub fn read(text: &str) -> Vec<History> {
    let mut histories: Vec<History> = Vec::new();
    for line in text.lines() {
        let numbers: Vec<i64> = line.split(' ').map(|word| word.parse().unwrap()).collect();
        if numbers[0] == START {
            histories.push(History::starting(&numbers));
        }
        let history = histories.last_mut().expect("a start");
        match numbers[0] {
            START => {}
            VERDICT => history.verdict(&numbers),
            _ => history.event(&numbers),
        }
        if numbers[0] != VERDICT {
            history.text += line;
            history.text += "\n";
        }
    }
    histories
}

impl History {
    /// The order that the Rust found for the model.
    pub fn order(&self, model: Model) -> Option<&[Place]> {
        match self.verdicts.get(model as usize) {
            Some(Verdict::Order(order)) => Some(order),
            _ => None,
        }
    }

    /// The orders that the Rust found, once each.
    pub fn found(&self) -> Vec<&[Place]> {
        let mut orders: Vec<&[Place]> = MODELS
            .iter()
            .filter_map(|model| self.order(*model))
            .collect();
        orders.dedup();
        orders
    }

    /// `0 F n v1 … vn`
    fn starting(line: &[i64]) -> Self {
        let family = Family::of(line[1]);
        History {
            family,
            start: family.object(&line[2..]),
            events: Vec::new(),
            verdicts: Vec::new(),
            text: String::new(),
        }
    }

    /// `1 T OP V` or `2 T RET RN RV`
    fn event(&mut self, line: &[i64]) {
        let event = match *line {
            [INVOKE, t, op, v] => Event::Invoke(thread(t), self.family.operation(op, v)),
            [RETURN, t, ret, rn, rv] => Event::Return(thread(t), self.family.returned(ret, rn, rv)),
            _ => panic!("an event"),
        };
        self.events.push(event);
    }

    /// `3 M A K`, and for an order `n`, n times `T OP V RET RN RV`
    fn verdict(&mut self, line: &[i64]) {
        assert_eq!(usize::try_from(line[1]), Ok(self.verdicts.len()), "a model");
        self.verdicts.push(match line[3] {
            0 => Verdict::NoOrder,
            1 => Verdict::Order(self.places(&line[5..])),
            2 => Verdict::Invalid,
            _ => panic!("a verdict"),
        });
    }

    fn places(&self, numbers: &[i64]) -> Vec<Place> {
        let place = |place: &[i64]| {
            let returned = self.family.returned(place[3], place[4], place[5]);
            Place::new(thread(place[0]), self.family.words(returned))
        };
        numbers.chunks_exact(FOUND).map(place).collect()
    }
}

fn thread(number: i64) -> u32 {
    u32::try_from(number).expect("a thread")
}
