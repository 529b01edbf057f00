//! The two consistency models.

use std::fmt;
use std::str::FromStr;

/// What an order of the operations has to respect, besides each thread's own order.
#[derive(Clone, Copy, Debug, Eq, Hash, Ord, PartialEq, PartialOrd)]
#[non_exhaustive]
pub enum Model {
    /// Sequential consistency (Lamport 1979): nothing more. A stale answer of another thread passes.
    Sequential,
    /// Linearizability (Herlihy and Wing 1990): real time too. An operation that returned before another was
    /// invoked stands before it, so that no stale answer passes.
    Linearizable,
}

impl Model {
    /// Every model, the stricter one first.
    pub const ALL: [Model; 2] = [Model::Linearizable, Model::Sequential];

    /// Its number in the exported call.
    pub fn number(self) -> u32 {
        match self {
            Model::Sequential => 0,
            Model::Linearizable => 1,
        }
    }
}

impl fmt::Display for Model {
    /// `sequential` or `linearizable`.
    fn fmt(&self, f: &mut fmt::Formatter) -> fmt::Result {
        f.write_str(match self {
            Model::Sequential => "sequential",
            Model::Linearizable => "linearizable",
        })
    }
}

/// A name that no model has.
#[derive(Clone, Debug, Eq, PartialEq)]
pub struct UnknownModel(String);

impl fmt::Display for UnknownModel {
    fn fmt(&self, f: &mut fmt::Formatter) -> fmt::Result {
        write!(f, "a model is linearizable or sequential, not {}", self.0)
    }
}

impl std::error::Error for UnknownModel {}

impl FromStr for Model {
    type Err = UnknownModel;

    /// The model of this name, written as it is displayed.
    fn from_str(name: &str) -> Result<Model, UnknownModel> {
        let named = |model: &Model| model.to_string() == name;
        let found = Model::ALL.into_iter().find(named);
        found.ok_or_else(|| UnknownModel(name.to_string()))
    }
}
