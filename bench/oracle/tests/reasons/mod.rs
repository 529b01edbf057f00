//! The events of the list, each with the reason for its answer, told from the events before it.

#[derive(Clone, Copy, Debug, Eq, Ord, PartialEq, PartialOrd)]
pub enum Reason {
    Recorded,
    /// An invoke on a thread that has an operation in flight.
    Busy,
    /// A return of a thread that has none.
    Stray,
    /// Any event after one of these two.
    AfterInvalid,
}

pub struct Asked {
    pub family: i64,
    pub kind: i64,
    pub thread: i64,
    pub reason: Reason,
    /// The operation and the return that this event completes it with.
    pub completed: Option<(i64, i64)>,
    pub answer: i64,
    pub len: i64,
}

/// The testers of a sequence: the operation that each thread has in flight.
struct Testers {
    family: i64,
    valid: bool,
    in_flight: [Option<i64>; 8],
}

impl Testers {
    fn new(family: i64) -> Self {
        Testers {
            family,
            valid: true,
            in_flight: [None; 8],
        }
    }

    fn event(&mut self, line: &[i64]) -> Asked {
        let [kind, thread, .., answer, len] = *line else {
            panic!("an event");
        };
        let (op, ret) = match kind {
            1 => (Some(line[2]), None),
            2 => (None, Some(line[2])),
            3 => (Some(line[2]), Some(line[4])),
            _ => panic!("a kind of event"),
        };
        let slot = &mut self.in_flight[usize::try_from(thread).expect("a thread")];
        let reason = match (self.valid, op, *slot) {
            (false, _, _) => Reason::AfterInvalid,
            (true, Some(_), Some(_)) => Reason::Busy,
            (true, None, None) => Reason::Stray,
            _ => Reason::Recorded,
        };
        self.valid = reason == Reason::Recorded;
        let mut completed = None;
        if self.valid {
            let flying = op.or(*slot);
            completed = flying.zip(ret);
            *slot = if ret.is_some() { None } else { flying };
        }
        Asked {
            family: self.family,
            kind,
            thread,
            reason,
            completed,
            answer,
            len,
        }
    }
}

pub fn asked(lines: Vec<Vec<i64>>) -> Vec<Asked> {
    let mut testers = Testers::new(0);
    let mut events = Vec::new();
    for line in lines {
        if line[0] == 0 {
            testers = Testers::new(line[1]);
        } else {
            events.push(testers.event(&line));
        }
    }
    events
}
