//! Files that both sides are handed, turn and turn about: the exported call, and the Rust from the same bytes.

use crate::files::{self, Written};
use crate::histories::{Event, History};
use crate::reader::{self, Read};
use crate::summary::Measured;
use crate::testers::Tester;
use crate::turns::{enough, least, nanoseconds};
use kilteshva::{judge, raw, Answer, Model, Refusal};
use std::hint::black_box;
use std::marker::PhantomData;

const TURNS: usize = 7;

const LARGEST: u64 = u64::MAX;

/// The call with this budget makes no attempt.
const NOTHING: u64 = 0;

/// A number that should go on: a file with it behind its events is refused, but only when all of them have been
/// recorded, and nothing is judged.
const CUT: u8 = 128;

/// What is timed on a file. Of the port it is always the exported call.
#[derive(Clone, Copy)]
enum Run {
    PortWhole,
    /// All that precedes the first attempt.
    PortLoading,
    /// Less than that: the search is not prepared either.
    PortRecording,
    RustWhole,
    /// Reading and feeding.
    RustLoading,
}

const RUNS: [Run; 5] = [
    Run::PortWhole,
    Run::PortLoading,
    Run::PortRecording,
    Run::RustWhole,
    Run::RustLoading,
];

/// Nanoseconds of both sides, the port's first.
pub type Sides = [f64; 2];

/// The whole call, loading alone, and judging alone: what a side's whole call takes beyond recording the events.
pub type Parts<T> = [T; 3];

fn parts(runs: [f64; RUNS.len()]) -> Parts<Sides> {
    let [port, port_loading, port_recording, rust, rust_loading] = runs;
    [
        [port, rust],
        [port_loading, rust_loading],
        [port - port_recording, rust - rust_loading],
    ]
}

/// A file, and the model that it is judged by.
pub struct File<F> {
    bytes: Vec<u8>,
    cut_behind: Vec<u8>,
    model: Model,
    family: PhantomData<F>,
}

/// A file that both sides have judged alike.
pub struct Called<F> {
    file: File<F>,
    has_order: bool,
    attempts: u64,
}

/// The files that this budget decides: on each of them both sides are seen to give one verdict, and one order
/// where there is any.
pub fn decided_by<F>(budget: u64, histories: &[History<F>], model: Model) -> Vec<Called<F>>
where
    F: Written + Read,
{
    let called = |history| {
        let file = File::of(history, model);
        let (threads, attempts) = match judge(&file.bytes, model, budget) {
            Answer::Order { threads, attempts } => (Some(threads), attempts),
            Answer::NoOrder { attempts } => (None, attempts),
            Answer::Undecided { .. } => return None,
            refused => panic!("{refused}"),
        };
        let order = threads.map(|threads| in_order(history, &threads));
        let rust = file.rust_loaded().order();
        assert_eq!(format!("{order:?}"), format!("{rust:?}"));
        Some(Called {
            file,
            has_order: order.is_some(),
            attempts,
        })
    };
    histories.iter().filter_map(called).collect()
}

/// The operations, of which all have returned, as these threads have them in turn.
fn in_order<F: Written>(history: &History<F>, threads: &[u8]) -> Vec<(F::Op, F::Ret)> {
    let mut invoked = vec![Vec::new(); 8];
    let mut returned = vec![Vec::new(); 8];
    for event in history.0.iter().rev() {
        match event {
            Event::Invoke(thread, op) => invoked[*thread as usize].push(op.clone()),
            Event::Return(thread, ret) => returned[*thread as usize].push(ret.clone()),
        }
    }
    let mut next = |thread: &u8| {
        let at = usize::from(*thread);
        Some((invoked[at].pop()?, returned[at].pop()?))
    };
    let order: Option<Vec<_>> = threads.iter().map(&mut next).collect();
    order.expect("no more operations than the threads have")
}

impl<F: Written + Read> File<F> {
    /// Seen to be loaded to its end, with every event recorded.
    pub fn of(history: &History<F>, model: Model) -> Self {
        let bytes = files::bytes(history);
        let cut_behind = [&bytes[..], &[CUT]].concat();
        let loaded = judge(&bytes, model, NOTHING);
        assert!(matches!(loaded, Answer::Undecided { .. }), "{loaded}");
        let refused = Answer::Refused {
            refusal: Refusal::CutOff,
            place: bytes.len() as u32,
        };
        assert_eq!(judge(&cut_behind, model, LARGEST), refused);
        File {
            bytes,
            cut_behind,
            model,
            family: PhantomData,
        }
    }

    /// Nanoseconds of both sides for loading alone.
    pub fn loading(&self) -> Sides {
        self.over_and_over([Run::PortLoading, Run::RustLoading])
    }

    /// Nanoseconds of each of these, from doing it over and over.
    fn over_and_over<const N: usize>(&self, runs: [Run; N]) -> [f64; N] {
        let runs = runs.map(|run| (run, enough(|times| self.run(run, times))));
        least(TURNS, || {
            runs.map(|(run, times)| nanoseconds(times, || self.run(run, times)))
        })
    }

    /// Does this so many times.
    fn run(&self, run: Run, times: u64) -> u64 {
        match run {
            Run::PortWhole => self.port(&self.bytes, LARGEST, times),
            Run::PortLoading => self.port(&self.bytes, NOTHING, times),
            Run::PortRecording => self.port(&self.cut_behind, NOTHING, times),
            Run::RustWhole => self.rust_judges(times),
            Run::RustLoading => self.rust_loads(times),
        }
    }

    fn port(&self, file: &[u8], budget: u64, times: u64) -> u64 {
        let mut answer = [0; raw::ANSWER];
        let mut call = || {
            let result = raw::judge(black_box(file), self.model.number(), budget, &mut answer);
            u64::from(result) + u64::from(answer[0])
        };
        (0..times).map(|_| call()).sum()
    }

    fn rust_loads(&self, times: u64) -> u64 {
        for _ in 0..times {
            black_box(self.rust_loaded());
        }
        times
    }

    fn rust_judges(&self, times: u64) -> u64 {
        let judge = |_| u64::from(self.rust_loaded().has_order());
        (0..times).map(judge).sum()
    }

    fn rust_loaded(&self) -> Tester<F> {
        let file = black_box(self.bytes.as_slice());
        reader::load(file, self.model).expect("a file that loads")
    }
}

impl<F: Written + Read> Called<F> {
    /// Nanoseconds of each part, from doing it over and over.
    pub fn measured(&self) -> Parts<Measured> {
        parts(self.file.over_and_over(RUNS)).map(|[port, rust]| Measured {
            has_order: self.has_order,
            attempts: self.attempts as f64,
            port,
            rust,
        })
    }
}

/// Nanoseconds of each part for all of these, each once: no call is helped by one on the same file just before
/// it.
pub fn one_pass<F: Written + Read>(called: &[Called<F>]) -> Parts<Sides> {
    let all = |run| called.iter().map(|called| called.file.run(run, 1)).sum();
    parts(least(TURNS, || RUNS.map(|run| nanoseconds(1, || all(run)))))
}
