//! The list: the lines of a history's start and events, then a line for each proposal.

use crate::choice;
use crate::history;
use crate::proposal::Proposal;

const PROPOSAL: u32 = 3;

/// The list for these histories.
pub fn text(histories: &str) -> String {
    let histories = history::read(histories);
    let mut text = String::new();
    let mut last = None;
    for proposal in choice::proposals(&histories) {
        if last != Some(proposal.history) {
            text += &histories[proposal.history].text;
            last = Some(proposal.history);
        }
        text += &lines(&proposal);
    }
    text
}

/// `3 M Y k w1 … wk`, for each model that is asked
fn lines(proposal: &Proposal) -> String {
    let mut text = String::new();
    for (model, answer) in (0..).zip(proposal.answers) {
        if let Some(yes) = answer {
            let count = u32::try_from(proposal.words.len()).expect("a count");
            let mut line = vec![PROPOSAL, model, u32::from(yes), count];
            line.extend(&proposal.words);
            let numbers: Vec<String> = line.iter().map(u32::to_string).collect();
            text += &numbers.join(" ");
            text += "\n";
        }
    }
    text
}
