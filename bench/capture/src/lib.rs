//! Captures as values, and the bytes of a corpus file that holds them.
//!
//! This is for those who make corpus files, samples and tests; nothing here reads or judges one.

mod family;
mod random;
mod write;

pub use family::{
    Object, Op, RegisterOp, RegisterRet, Ret, StackOp, StackRet, WriteOnceOp, WriteOnceRet,
};
pub use random::Random;
pub use write::{padded, shortest, signed, OPENING};

/// What a probe wrote down: the object at its start, then calls and answers in the order of time.
#[derive(Clone, Debug, PartialEq)]
pub struct Capture {
    pub start: Object,
    pub events: Vec<Event>,
}

/// A thread (a client) called, or was answered.
#[derive(Clone, Copy, Debug, PartialEq)]
pub struct Event {
    /// At most 2,147,483,647: a file has no room for more.
    pub thread: u32,
    pub call: Call,
}

#[derive(Clone, Copy, Debug, PartialEq)]
pub enum Call {
    Invoke(Op),
    Return(Ret),
}

impl Capture {
    /// A capture of this object with no events yet.
    pub fn of(start: Object) -> Self {
        Capture {
            start,
            events: Vec::new(),
        }
    }

    /// And then the thread invokes this operation.
    pub fn invoke(mut self, thread: u32, op: impl Into<Op>) -> Self {
        let call = Call::Invoke(op.into());
        self.events.push(Event { thread, call });
        self
    }

    /// And then the thread's operation returns this.
    pub fn returns(mut self, thread: u32, ret: impl Into<Ret>) -> Self {
        let call = Call::Return(ret.into());
        self.events.push(Event { thread, call });
        self
    }

    /// And then the thread does both, with nothing between them.
    pub fn invret(self, thread: u32, op: impl Into<Op>, ret: impl Into<Ret>) -> Self {
        self.invoke(thread, op).returns(thread, ret)
    }
}
