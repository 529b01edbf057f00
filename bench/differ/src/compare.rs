//! An answer, held to what it should be.

use cases::answer::Answer;
use cases::calls::{Batch, Call};
use cases::due::due;
use std::fmt::{self, Write};

/// An answer that is not what it should be, with all that is needed to ask again.
pub struct Difference {
    file: Vec<u8>,
    model: u32,
    budget: u64,
    kind: String,
    answer: Answer,
    /// Who says otherwise, and what.
    expected: String,
}

/// What is wrong with an answer, if anything.
pub fn compare(batch: &Batch, call: &Call, answer: &Answer) -> Option<Difference> {
    let expected = match due(batch, call) {
        Ok(due) if due == *answer => return None,
        Ok(due) => format!("reference: {}", shown(&due)),
        Err(says) => format!("stateright: {says:?}"),
    };
    let subject = &batch.subjects[call.subject];
    Some(Difference {
        file: subject.file.clone(),
        model: call.model,
        budget: call.budget,
        kind: format!("{:?}", subject.kind),
        answer: answer.clone(),
        expected,
    })
}

fn shown(answer: &Answer) -> String {
    format!("result {}, buffer {}", answer.result, hex(&answer.buffer))
}

fn hex(bytes: &[u8]) -> String {
    let mut hex = String::new();
    for byte in bytes {
        write!(hex, " {byte:02x}").expect("a string");
    }
    hex.trim_start().to_string()
}

impl fmt::Display for Difference {
    fn fmt(&self, f: &mut fmt::Formatter) -> fmt::Result {
        writeln!(f, "a difference, on a file of the kind {}", self.kind)?;
        writeln!(f, "  file: {}", hex(&self.file))?;
        writeln!(f, "  model: {}, budget: {}", self.model, self.budget)?;
        writeln!(f, "  judge: {}", shown(&self.answer))?;
        write!(f, "  {}", self.expected)
    }
}

#[cfg(test)]
mod tests {
    use super::*;
    use capture::{Capture, Object, Random, RegisterOp, RegisterRet};
    use cases::answer::answer;
    use cases::calls::Manner;
    use cases::files::Kind;
    use cases::rust::Search;

    #[test]
    fn what_stateright_does_not_say_is_a_difference() {
        let write =
            Capture::of(Object::Register(0)).invret(0, RegisterOp::Write(1), RegisterRet::WriteOk);
        let mut batch = Batch::default();
        let manner = Manner {
            limit: 100,
            one_budget: false,
            odd_calls: false,
        };
        batch.add(Kind::Honest, write.bytes(), manner, &mut Random::new(1));
        let differ = |batch: &Batch| {
            let right = |call| compare(batch, call, &answer(reference::host_call, batch, call));
            batch.calls.iter().filter_map(right).count()
        };
        assert_eq!(differ(&batch), 0);
        batch.subjects[0].rust.searches = [Search::NoOrder, Search::NoOrder];
        assert!(differ(&batch) > 0);
    }
}
