//! What a call must come to: what the reference answers, as long as stateright agrees.

use crate::answer::{answer, Answer};
use crate::calls::{Batch, Call};
use crate::rust::{Says, Search};

/// What a call must come to. Where stateright disagrees with the reference nothing is due, and the error is what
/// stateright says.
pub fn due<'a>(batch: &'a Batch, call: &Call) -> Result<Answer, &'a Says> {
    let answer = answer(reference::host_call, batch, call);
    let rust = &batch.subjects[call.subject].rust;
    match agrees(rust, call, &answer) {
        true => Ok(answer),
        false => Err(rust),
    }
}

/// Whether an answer says what stateright says, as far as that goes: which event recording refused, and,
/// where the budget covers the search, whether there is an order and which is the first.
fn agrees(rust: &Says, call: &Call, answer: &Answer) -> bool {
    if answer.result != 0 {
        return true;
    }
    let [verdict, number, length] = [0, 1, 2].map(|at| answer.buffer[at]);
    let refused = matches!(number, 4 | 5).then(|| rust.fed - 1);
    let order = answer.buffer[15..].get(..length.into());
    let search = &rust.searches[call.model as usize];
    let same_verdict = match search {
        Search::Order(first) if call.covered => verdict == 0 && order == Some(first),
        Search::NoOrder if call.covered => verdict == 1,
        _ => true,
    };
    rust.refused == refused && same_verdict
}

#[cfg(test)]
mod tests {
    use super::*;
    use crate::calls::Manner;
    use crate::files::Kind;
    use capture::{Capture, Object, Random, RegisterOp, RegisterRet};

    /// Two overlapping Writes: the first order is 0 1, not 1 0.
    fn writes() -> Capture {
        Capture::of(Object::Register(0))
            .invoke(1, RegisterOp::Write(1))
            .invret(0, RegisterOp::Write(2), RegisterRet::WriteOk)
            .returns(1, RegisterRet::WriteOk)
    }

    /// How many calls are in dispute when stateright says something else.
    fn disputed(capture: Capture, otherwise: impl Fn(&mut Says)) -> usize {
        let mut batch = Batch::default();
        let manner = Manner {
            limit: 100,
            one_budget: false,
            odd_calls: false,
        };
        batch.add(Kind::Honest, capture.bytes(), manner, &mut Random::new(1));
        otherwise(&mut batch.subjects[0].rust);
        let is_disputed = |call: &&Call| due(&batch, call).is_err();
        batch.calls.iter().filter(is_disputed).count()
    }

    #[test]
    fn stateright_agrees() {
        assert_eq!(disputed(writes(), |_| {}), 0);
    }

    #[test]
    fn another_first_order_is_a_dispute() {
        let other = Search::Order(vec![1, 0]);
        let otherwise = |says: &mut Says| says.searches = [other.clone(), other.clone()];
        assert!(disputed(writes(), otherwise) > 0);
    }

    #[test]
    fn another_verdict_is_a_dispute() {
        let otherwise = |says: &mut Says| says.searches = [Search::NoOrder, Search::NoOrder];
        assert!(disputed(writes(), otherwise) > 0);
    }

    #[test]
    fn another_refusal_in_recording_is_a_dispute() {
        assert!(disputed(writes(), |says| says.refused = Some(3)) > 0);
        let twice = writes()
            .invoke(0, RegisterOp::Read)
            .invoke(0, RegisterOp::Read);
        assert_eq!(disputed(twice.clone(), |_| {}), 0);
        assert!(disputed(twice.clone(), |says| says.refused = None) > 0);
        assert!(disputed(twice, |says| says.refused = Some(4)) > 0);
    }
}
