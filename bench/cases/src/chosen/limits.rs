//! Files at the limits: 64 operations, thread 7, 65,536 bytes.

use super::captures::{full, of_each_family, trace_14};
use crate::files::Kind;
use capture::{shortest, Capture};
use reference::sizes::FILE;

/// The longest file of the list.
pub const LONGEST: usize = 70_000;

pub fn files() -> Vec<(Kind, Vec<u8>)> {
    [operations(), threads(), lengths()].concat()
}

/// A full tester, and one more event: nothing, the last return, an invoke on a busy thread, on an idle one and a return
/// on an idle one. A busy thread gets 4, although there is no room.
fn operations() -> Vec<(Kind, Vec<u8>)> {
    let mut files = Vec::new();
    for (full, op, ret) in full() {
        files.push((Kind::Honest, full.clone()));
        files.push((Kind::Honest, full.clone().returns(7, ret)));
        files.push((Kind::SecondInvoke, full.clone().invoke(7, op)));
        files.push((Kind::Full, full.clone().invoke(0, op)));
        files.push((Kind::StrayReturn, full.returns(0, ret)));
    }
    let bytes = |(kind, capture): (Kind, Capture)| (kind, capture.bytes());
    files.into_iter().map(bytes).collect()
}

/// An event of the last thread and of those above it. The whole event is read first, so that an unknown operation or
/// return gets 24 on any thread.
fn threads() -> Vec<(Kind, Vec<u8>)> {
    let mut files = Vec::new();
    for event in [14, 15, 16, 17, 256, 512, u32::MAX - 1, u32::MAX] {
        for code in [0, 1, 3] {
            let event = [event, code, 0].into_iter().flat_map(shortest);
            let file = trace_14().bytes().into_iter().chain(event).collect();
            files.push((Kind::HighThread, file));
        }
    }
    files
}

/// Captures with zeros behind them, and zeros alone, up to about the longest file that there may be.
fn lengths() -> Vec<(Kind, Vec<u8>)> {
    let mut files = vec![Vec::new()];
    files.extend(of_each_family().map(|capture| capture.bytes()));
    files.extend(full().map(|(capture, _, ret)| capture.returns(7, ret).bytes()));
    let lengths = [FILE - 1, FILE, FILE + 1, LONGEST];
    let long = |file: &Vec<u8>| lengths.map(|length| (Kind::Long, resized(file, length)));
    files.iter().flat_map(long).collect()
}

fn resized(file: &[u8], length: usize) -> Vec<u8> {
    let mut file = file.to_vec();
    file.resize(length, 0);
    file
}
