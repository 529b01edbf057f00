//! Corpus files, calls of the judge on them, and what each call must come to.
//!
//! Files are made from a seed, by kind ([`files`]), or chosen one by one ([`chosen`]); [`calls`] has the models, budgets
//! and buffers with which they are judged. What a call must come to ([`due`]) the reference says, and stateright,
//! unchanged ([`rust`]), has to agree. [`list`] is the list that the program prints.

pub mod answer;
pub mod calls;
pub mod chosen;
pub mod due;
pub mod files;
pub mod list;
pub mod rust;
