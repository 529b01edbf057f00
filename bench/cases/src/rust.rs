//! What stateright, unchanged, says of a file's events.

mod family;

use capture::{Call, Event, Object};
use family::Family;
use reference::Loaded;
use stateright::semantics::register::Register;
use stateright::semantics::write_once_register::WORegister;
use stateright::semantics::{
    ConsistencyTester, LinearizabilityTester, SequentialConsistencyTester, SequentialSpec,
};

/// What stateright says of a file that was read.
#[derive(Clone, Debug, PartialEq)]
pub struct Says {
    /// How many events were fed.
    pub fed: usize,
    /// The index of the first event that both testers refused.
    pub refused: Option<usize>,
    /// What came of the search, by the model's number.
    pub searches: [Search; 2],
}

/// What came of a search.
#[derive(Clone, Debug, PartialEq)]
pub enum Search {
    NotTried,
    NoOrder,
    /// The threads of the first order.
    Order(Vec<u8>),
}

/// Feeds the events that were read to both testers, and searches for a first order where that is wanted, by
/// model number. Of the refusals stateright knows 4 and 5 alone: an event that drew another is not fed.
pub fn says(loaded: &Loaded, wanted: [bool; 2]) -> Says {
    let events = match loaded.number {
        0 | 4 | 5 | 10.. => &loaded.events[..],
        _ => &loaded.events[..loaded.events.len() - 1],
    };
    match &loaded.tester.start {
        Object::Register(value) => of_family(Register(*value), events, wanted),
        Object::WriteOnce(held) => of_family(WORegister(*held), events, wanted),
        Object::Stack(values) => of_family(values.clone(), events, wanted),
    }
}

fn of_family<F: Family>(start: F, events: &[Event], wanted: [bool; 2]) -> Says {
    let mut sequential = SequentialConsistencyTester::new(Marked(start.clone()));
    let mut linearizability = LinearizabilityTester::new(Marked(start));
    let refuses = |event: &Event| {
        let first = feed(&mut sequential, event).is_err();
        let second = feed(&mut linearizability, event).is_err();
        assert_eq!(first, second, "the testers record alike");
        first
    };
    let refused = events.iter().position(refuses);
    let searches = [
        search(wanted[0], || sequential.serialized_history()),
        search(wanted[1], || linearizability.serialized_history()),
    ];
    Says {
        fed: events.len(),
        refused,
        searches,
    }
}

/// Searches for an order of marked operations, if that is wanted.
fn search<O, R>(wanted: bool, first_order: impl Fn() -> Option<Vec<((u8, O), R)>>) -> Search {
    if !wanted {
        return Search::NotTried;
    }
    let threads = |order: Vec<((u8, O), R)>| order.iter().map(|((mark, _), _)| *mark).collect();
    first_order().map_or(Search::NoOrder, |order| Search::Order(threads(order)))
}

fn feed<F: Family, T: ConsistencyTester<u32, Marked<F>>>(
    tester: &mut T,
    event: &Event,
) -> Result<(), String> {
    match event.call {
        Call::Invoke(op) => {
            let mark = event.thread as u8;
            tester.on_invoke(event.thread, (mark, F::op(op))).map(drop)
        }
        Call::Return(ret) => tester.on_return(event.thread, F::ret(ret)).map(drop),
    }
}

/// An object of stateright's whose operations are marked with their threads, so that its orders name them.
#[derive(Clone)]
struct Marked<F>(F);

impl<F: SequentialSpec> SequentialSpec for Marked<F> {
    type Op = (u8, F::Op);
    type Ret = F::Ret;

    fn invoke(&mut self, (_, op): &Self::Op) -> Self::Ret {
        self.0.invoke(op)
    }

    fn is_valid_step(&mut self, (_, op): &Self::Op, ret: &Self::Ret) -> bool {
        self.0.is_valid_step(op, ret)
    }
}
