//! Which of all proposals are printed: every order that the Rust found, and of the others an even share.

use crate::every::SMALL;
use crate::family::Family;
use crate::history::History;
use crate::place::Place;
use crate::proposal::{Answers, Kind, Proposal, Size};
use crate::record::Record;
use crate::{large, refused, small};
use std::collections::{BTreeMap, BTreeSet};

/// An order is also proposed for this many histories that come before its own.
const NEIGHBOURS: usize = 40;

/// Proposals that differ only by the history and the words.
type Alike = (Kind, Size, Family, Answers);

/// The printed proposals, in the order of the histories.
pub fn proposals(histories: &[History]) -> Vec<Proposal> {
    let mut alike: BTreeMap<Alike, Vec<Proposal>> = BTreeMap::new();
    for number in 0..histories.len() {
        for proposal in of(histories, number) {
            let key = (
                proposal.kind,
                proposal.size,
                proposal.family,
                proposal.answers,
            );
            alike.entry(key).or_default().push(proposal);
        }
    }
    let shares = alike
        .into_iter()
        .map(|((kind, size, ..), all)| share(all, quota(kind, size)));
    let mut chosen: Vec<Proposal> = shares.flatten().collect();
    chosen.sort_by_key(|proposal| (proposal.history, proposal.kind));
    chosen
}

/// All that is proposed for a history.
fn of(histories: &[History], number: usize) -> Vec<Proposal> {
    let history = &histories[number];
    let record = Record::of(&history.events);
    let is_small = record.operations.len() <= SMALL;
    let proposals = match (record.valid, is_small) {
        (false, _) => refused::proposals(history, &record),
        (true, true) => small::proposals(history, &record, &of_others(histories, number)),
        (true, false) => large::proposals(history, &record, number),
    };
    let proposal = |(kind, words, answers)| Proposal {
        history: number,
        family: history.family,
        size: if is_small { Size::Small } else { Size::Large },
        kind,
        words,
        answers,
    };
    once(proposals.into_iter().map(proposal).collect())
}

/// The first of those that ask the same model about the same words.
fn once(mut proposals: Vec<Proposal>) -> Vec<Proposal> {
    let mut asked = BTreeSet::new();
    proposals.retain(|proposal| {
        let mut models = (0..)
            .zip(proposal.answers)
            .filter(|(_, answer)| answer.is_some());
        models.all(|(model, _): (u32, _)| asked.insert((model, proposal.words.clone())))
    });
    proposals
}

/// The orders found for the histories of the same family that come next.
fn of_others(histories: &[History], number: usize) -> Vec<&[Place]> {
    let next = histories[number + 1..].iter().take(NEIGHBOURS);
    next.filter(|other| other.family == histories[number].family)
        .flat_map(History::found)
        .collect()
}

/// How many of the proposals that are alike are printed: few where a kind has many variants or its lines are long.
fn quota(kind: Kind, size: Size) -> usize {
    match (kind, size) {
        (Kind::Found, _) => usize::MAX,
        (Kind::Longer(65 | 66), _) => 3,
        (Kind::Longer(_), _) => 1,
        (Kind::FoundForTheOther, Size::Large) => 18,
        (Kind::Dropped, Size::Large) => 10,
        (Kind::EmptyToInvalid | Kind::LegalToInvalid | Kind::AsRecordedToInvalid, _) => 8,
        (_, Size::Large) => 2,
        (Kind::Value(_) | Kind::NoReturn(_) | Kind::HalfPlace(_), _) => 4,
        (Kind::ThreadAbove(_) | Kind::ThreadRaised(_) | Kind::ThreadPutIn(_), _) => 4,
        _ => 18,
    }
}

/// This many of them at most, at even distances.
fn share(all: Vec<Proposal>, quota: usize) -> Vec<Proposal> {
    let count = all.len();
    let quota = quota.min(count);
    let is_chosen = |at: usize| (at + 1) * quota / count > at * quota / count;
    let numbered = all.into_iter().enumerate();
    numbered
        .filter(|(at, _)| is_chosen(*at))
        .map(|(_, proposal)| proposal)
        .collect()
}
