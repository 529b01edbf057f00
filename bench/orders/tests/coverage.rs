//! What is proposed: each kind with each answer that it can get, for each family and both models.

mod data;

use orders::choice;
use orders::family::{Family, FAMILIES};
use orders::history::{self, History};
use orders::legal::{is_legal, Model, MODELS};
use orders::named;
use orders::place::{places, WORDS};
use orders::proposal::{Kind, NoReturn, Proposal, Size};
use orders::record::Record;
use std::collections::BTreeMap;
use std::sync::OnceLock;

/// Kinds of which none is legal.
const NEVER: [Kind; 33] = [
    Kind::Value(1),
    Kind::Value(2),
    Kind::Value(1 << 8),
    Kind::Value(1 << 31),
    Kind::Number,
    Kind::Count,
    Kind::ReturnOfAnother,
    Kind::NoReturn(NoReturn::Number(3)),
    Kind::NoReturn(NoReturn::Number(u32::MAX)),
    Kind::NoReturn(NoReturn::Count(2)),
    Kind::NoReturn(NoReturn::Count(u32::MAX)),
    Kind::NoReturn(NoReturn::Value),
    Kind::ThreadAbove(8),
    Kind::ThreadAbove(255),
    Kind::ThreadAbove(256),
    Kind::ThreadAbove(u32::MAX),
    Kind::ThreadRaised(8),
    Kind::ThreadRaised(1 << 8),
    Kind::ThreadRaised(1 << 16),
    Kind::ThreadPutIn(8),
    Kind::ThreadPutIn(255),
    Kind::ThreadPutIn(256),
    Kind::ThreadPutIn(u32::MAX),
    Kind::PendingAtEnd,
    Kind::PendingWrong,
    Kind::Longer(65),
    Kind::Longer(250),
    Kind::HalfPlace(1),
    Kind::HalfPlace(2),
    Kind::HalfPlace(3),
    Kind::EmptyToInvalid,
    Kind::LegalToInvalid,
    Kind::AsRecordedToInvalid,
];

/// Kinds of which some are legal and some are not.
const EITHER: [Kind; 6] = [
    Kind::OfAnotherHistory,
    Kind::AsRecorded,
    Kind::AsGiven,
    Kind::Swapped,
    Kind::Dropped,
    Kind::PendingRight,
];

/// Kinds of which some are legal for sequential consistency and not for linearizability.
const BETWEEN: [Kind; 4] = [
    Kind::AsGiven,
    Kind::Swapped,
    Kind::PendingRight,
    Kind::AnyLegal,
];

/// How many proposals of each kind are not legal and how many are, for both models together.
const COUNTS: [(&str, [usize; 2]); 26] = [
    ("Found", [0, 3974]),
    ("FoundForTheOther", [108, 108]),
    ("Empty", [108, 0]),
    ("OfAnotherHistory", [110, 102]),
    ("AsRecorded", [108, 108]),
    ("AsGiven", [174, 112]),
    ("Swapped", [162, 162]),
    ("Dropped", [186, 82]),
    ("Doubled", [114, 8]),
    ("Value", [96, 0]),
    ("Number", [108, 0]),
    ("Count", [108, 0]),
    ("ReturnOfAnother", [108, 0]),
    ("NoReturn", [192, 0]),
    ("ThreadAbove", [144, 0]),
    ("ThreadRaised", [108, 0]),
    ("ThreadPutIn", [144, 0]),
    ("PendingAtEnd", [108, 0]),
    ("PendingRight", [162, 162]),
    ("PendingWrong", [108, 0]),
    ("Longer", [96, 0]),
    ("HalfPlace", [108, 0]),
    ("AnyLegal", [54, 152]),
    ("EmptyToInvalid", [96, 0]),
    ("LegalToInvalid", [48, 0]),
    ("AsRecordedToInvalid", [92, 0]),
];

#[test]
fn each_kind_is_proposed_this_often() {
    let mut counts: BTreeMap<String, [usize; 2]> = BTreeMap::new();
    for (proposal, legal) in MODELS.into_iter().flat_map(answers) {
        let kind = format!("{:?}", proposal.kind);
        let kind = kind.split('(').next().expect("a name");
        counts.entry(kind.to_string()).or_default()[usize::from(legal)] += 1;
    }
    let expected = COUNTS.map(|(kind, counts)| (kind.to_string(), counts));
    assert_eq!(counts, BTreeMap::from(expected));
}

#[test]
fn each_order_that_the_rust_found_is_proposed_and_legal() {
    let orders = |model| {
        histories()
            .iter()
            .filter_map(move |history| history.order(model))
    };
    for model in MODELS {
        let found = answers(model).filter(|(proposal, _)| proposal.kind == Kind::Found);
        let legal = found.filter(|(_, legal)| *legal);
        assert_eq!(legal.count(), orders(model).count());
    }
}

#[test]
fn what_leaves_no_legal_order_is_proposed_for_each_family_and_model() {
    for kind in NEVER {
        for (family, model) in families_and_models() {
            let [no, yes] = counts(kind, family, model);
            assert!(0 < no && yes == 0, "{kind:?} {family:?} {model:?}");
        }
    }
}

#[test]
fn what_may_leave_one_is_proposed_with_both_answers_for_each_family_and_model() {
    for kind in EITHER {
        for (family, model) in families_and_models() {
            let [no, yes] = counts(kind, family, model);
            assert!(0 < no && 0 < yes, "{kind:?} {family:?} {model:?}");
        }
    }
    // Of the histories few have an operation that repeats the one in flight after it.
    let doubled = answers(Model::Sequential).filter(|(proposal, _)| proposal.kind == Kind::Doubled);
    let legal = doubled.filter(|(_, legal)| *legal);
    assert!(0 < legal.count());
}

#[test]
fn the_empty_order_is_proposed_with_both_answers_for_each_family_and_model() {
    for (family, model) in families_and_models() {
        for expected in [false, true] {
            let is_it =
                |proposal: &Proposal| proposal.family == family && proposal.words.is_empty();
            let mut answers = answers(model);
            assert!(answers.any(|(proposal, legal)| is_it(proposal) && legal == expected));
        }
    }
}

#[test]
fn orders_are_legal_for_one_model_and_not_for_the_other() {
    for family in FAMILIES {
        for kind in BETWEEN {
            let between = proposals()
                .iter()
                .filter(|proposal| (proposal.kind, proposal.family) == (kind, family))
                .filter(|proposal| proposal.answers == [Some(true), Some(false)]);
            assert!(10 <= between.count(), "{kind:?} {family:?}");
        }
        for size in [Size::Small, Size::Large] {
            for (model, expected) in [(Model::Sequential, true), (Model::Linearizable, false)] {
                let key = (Kind::FoundForTheOther, family, size);
                let found: Vec<bool> = answers(model)
                    .filter(|(other, _)| (other.kind, other.family, other.size) == key)
                    .map(|(_, legal)| legal)
                    .collect();
                assert!(10 <= found.len() && found.iter().all(|legal| *legal == expected));
            }
        }
    }
}

#[test]
fn in_flight_operations_are_placed_in_legal_orders() {
    for (family, model) in families_and_models() {
        for size in [Size::Small, Size::Large] {
            let placed = answers(model)
                .filter(|(proposal, legal)| {
                    *legal && (proposal.family, proposal.size) == (family, size)
                })
                .filter(|(proposal, _)| completed(proposal) < proposal.words.len() / WORDS);
            assert!(50 <= placed.count(), "{family:?} {model:?} {size:?}");
        }
    }
}

#[test]
fn orders_of_full_testers_are_proposed_and_longer_ones() {
    for (family, model) in families_and_models() {
        for (places, expected) in [(64, true), (65, false), (250, false)] {
            let full = answers(model)
                .filter(|(proposal, _)| proposal.family == family && operations(proposal) == 64)
                .filter(|(proposal, _)| proposal.words.len() == WORDS * places);
            let as_expected = full.filter(|(_, legal)| *legal == expected);
            assert!(0 < as_expected.count(), "{family:?} {model:?} {places}");
        }
    }
}

#[test]
fn each_answer_is_what_the_sentences_say_of_the_order_itself() {
    for model in MODELS {
        for (proposal, legal) in answers(model) {
            let history = &histories()[proposal.history];
            let record = Record::of(&history.events);
            let is_whole = proposal.words.len() % WORDS == 0;
            let steps = named::steps(history, &record, &places(&proposal.words));
            let says = |steps: Vec<_>| is_legal(model, &history.start, &record.operations, &steps);
            let expected = record.valid && is_whole && steps.is_some_and(says);
            assert_eq!(legal, expected, "{:?} {:?}", proposal.kind, proposal.words);
        }
    }
}

fn histories() -> &'static [History] {
    static HISTORIES: OnceLock<Vec<History>> = OnceLock::new();
    HISTORIES.get_or_init(|| history::read(&data::text("histories")))
}

fn proposals() -> &'static [Proposal] {
    static PROPOSALS: OnceLock<Vec<Proposal>> = OnceLock::new();
    PROPOSALS.get_or_init(|| choice::proposals(histories()))
}

/// The proposals that are asked for the model, with whether they are legal.
fn answers(model: Model) -> impl Iterator<Item = (&'static Proposal, bool)> {
    let answer = move |proposal: &'static Proposal| {
        let answer = proposal.answers[model as usize];
        answer.map(|legal| (proposal, legal))
    };
    proposals().iter().filter_map(answer)
}

/// How many are not legal, and how many are.
fn counts(kind: Kind, family: Family, model: Model) -> [usize; 2] {
    let mut counts = [0; 2];
    for (proposal, legal) in answers(model) {
        if (proposal.kind, proposal.family) == (kind, family) {
            counts[usize::from(legal)] += 1;
        }
    }
    counts
}

fn families_and_models() -> impl Iterator<Item = (Family, Model)> {
    let both = |family| MODELS.into_iter().map(move |model| (family, model));
    FAMILIES.into_iter().flat_map(both)
}

/// The completed operations of the proposal's history.
fn completed(proposal: &Proposal) -> usize {
    let record = Record::of(&histories()[proposal.history].events);
    let completed = record
        .operations
        .iter()
        .filter(|recorded| !recorded.is_in_flight());
    completed.count()
}

/// All operations of the proposal's history.
fn operations(proposal: &Proposal) -> usize {
    Record::of(&histories()[proposal.history].events)
        .operations
        .len()
}
