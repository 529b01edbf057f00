//! Captures of a store with several clients: every operation takes effect at some moment between its invoke
//! and its return.

use super::family;
use capture::{Capture, Object, Op, Random, Ret};
use reference::invoke;

/// How a store is used.
pub struct Use {
    /// Threads 0 up to one less than this.
    pub threads: usize,
    pub operations: usize,
    /// How often, in a hundred, a client calls while others wait: 0 is one call at a time.
    pub overlap: usize,
    /// Whether the capture ends with operations in flight.
    pub ends_early: bool,
    /// How often, in a hundred, an answer is given from an earlier state.
    pub staleness: usize,
}

/// A thread of a store.
#[derive(Clone, Copy)]
enum Client {
    Idle,
    Called(Op),
    /// The operation took effect, and this is its return.
    Served(Ret),
}

/// A capture of a store that does what it should.
pub fn honest(random: &mut Random) -> Capture {
    let usage = any_use(random);
    of_use(&usage, random)
}

/// A capture of a store that now and then answers from an earlier state.
pub fn stale(random: &mut Random) -> Capture {
    let staleness = random.pick(&[2, 5, 20, 50]);
    let usage = Use {
        staleness,
        ..any_use(random)
    };
    of_use(&usage, random)
}

/// Any number of threads, operations up to 64 but most often few, any degree of overlap.
pub fn any_use(random: &mut Random) -> Use {
    let most = random.pick(&[3, 6, 6, 10, 10, 16, 32, 64]);
    let some = 1 + random.below(most);
    Use {
        threads: 1 + random.below(8),
        operations: if random.chance(1, 32) { 0 } else { some },
        overlap: random.pick(&[0, 10, 30, 50, 70, 90, 100]),
        ends_early: random.chance(1, 2),
        staleness: 0,
    }
}

pub fn of_use(usage: &Use, random: &mut Random) -> Capture {
    let mut capture = Capture::of(family::start(random));
    let mut states = vec![capture.start.clone()];
    let mut clients = vec![Client::Idle; usage.threads];
    let mut called = 0;
    loop {
        let idle = which(&clients, |client| matches!(client, Client::Idle));
        let busy = which(&clients, |client| !matches!(client, Client::Idle));
        let may_call = called < usage.operations && !idle.is_empty();
        if may_call && (busy.is_empty() || random.chance(usage.overlap, 100)) {
            let thread = random.pick(&idle);
            let op = family::operation(&capture.start, random);
            clients[thread] = Client::Called(op);
            capture = capture.invoke(thread as u32, op);
            called += 1;
        } else if busy.is_empty() || called == usage.operations && usage.ends_early {
            return capture;
        } else {
            let thread = random.pick(&busy);
            clients[thread] = match clients[thread] {
                Client::Called(op) => Client::Served(serve(&mut states, op, usage, random)),
                Client::Served(ret) => {
                    capture = capture.returns(thread as u32, ret);
                    Client::Idle
                }
                Client::Idle => Client::Idle,
            };
        }
    }
}

/// Which threads are of this kind.
fn which(clients: &[Client], is: impl Fn(&Client) -> bool) -> Vec<usize> {
    let threads = 0..clients.len();
    threads.filter(|thread| is(&clients[*thread])).collect()
}

/// The operation takes effect; its return comes from the newest state, or at times from an earlier one.
fn serve(states: &mut Vec<Object>, op: Op, usage: &Use, random: &mut Random) -> Ret {
    let newest = states.len() - 1;
    let seen = if random.chance(usage.staleness, 100) {
        random.below(states.len())
    } else {
        newest
    };
    let (_, ret) = invoke(&states[seen], op);
    let (after, _) = invoke(&states[newest], op);
    states.push(after);
    ret
}
