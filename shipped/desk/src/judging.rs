//! Judging all files, several at once, and telling what came of them in the order of the files.

use crate::digest::sha256;
use crate::finding::{Found, What};
use crate::manifest::Manifest;
use crate::outcome::{Judged, Kept, Outcome, Skipped};
use crate::stop::{Stop, Why};
use kilteshva::file::{self, Stamp, Unread};
use kilteshva::{count, judge, Model, LONGEST_FILE};
use std::collections::BTreeMap;
use std::io::{self, Read};
use std::sync::atomic::{AtomicUsize, Ordering};
use std::sync::mpsc::{channel, Receiver, Sender, TryRecvError};
use std::sync::Arc;
use std::thread::{sleep, Builder};
use std::time::{Duration, Instant};

/// The stack of a thread that judges: the library's call needs less than 256 KiB, and std some more.
const STACK: usize = 512 * 1024;

/// How long the listener's thread sleeps before it looks at what has come: being woken for each file would take
/// longer than judging a small one.
const PAUSE: Duration = Duration::from_millis(1);

/// What is judged, and how.
pub struct Task {
    pub files: Vec<Found>,
    pub models: Vec<Model>,
    pub budget: u64,
    pub manifest: Option<Manifest>,
    /// Whether each file's digest is told.
    pub digests: bool,
    /// The files that the report is written to, by device and inode.
    pub own_files: Vec<(u64, u64)>,
}

/// What came of a file.
pub struct Came {
    pub outcome: Outcome,
    /// The manifest's entry of it.
    pub entry: Option<usize>,
}

/// Who is told what comes of the files.
pub trait Listener {
    /// This came of a file. Files come in their order; an interrupted run leaves some out.
    fn came(&mut self, at: usize, came: Came);
    /// So many files are done, and what has come by now is told.
    fn progress(&mut self, done: usize);
}

/// Judges every file, or those that the run has time for: then it says why it ended. It fails only where no thread can be
/// had.
pub fn judge_all(
    task: &Arc<Task>,
    jobs: usize,
    stop: &Stop,
    listener: &mut impl Listener,
) -> io::Result<Option<Why>> {
    let next = Arc::new(AtomicUsize::new(0));
    let (sender, comings) = channel();
    for job in 0..jobs.min(task.files.len()) {
        let (task, next, sender) = (task.clone(), next.clone(), sender.clone());
        // Nobody waits for these threads: when the run has to end, one may be in a long search.
        let thread = Builder::new().stack_size(STACK);
        match thread.spawn(move || work(&task, &next, sender)) {
            Ok(_) => {}
            Err(error) if job == 0 => return Err(error),
            // With the threads that there are it only takes longer.
            Err(_) => break,
        }
    }
    drop(sender);
    Ok(tell(task.files.len(), comings, stop, listener))
}

/// Judges the next file that no one has taken, up to the last.
fn work(task: &Task, next: &AtomicUsize, sender: Sender<(usize, Came)>) {
    let mut room = Vec::with_capacity(LONGEST_FILE + 1);
    loop {
        let at = next.fetch_add(1, Ordering::Relaxed);
        let Some(found) = task.files.get(at) else {
            return;
        };
        if sender.send((at, came(found, task, &mut room))).is_err() {
            return;
        }
    }
}

/// Tells what comes in the order of the files; what comes early waits, but for the end of the run.
fn tell(
    files: usize,
    comings: Receiver<(usize, Came)>,
    stop: &Stop,
    listener: &mut impl Listener,
) -> Option<Why> {
    let mut early = BTreeMap::new();
    let mut told = 0;
    loop {
        let asked = stop.asked();
        let ended = loop {
            match comings.try_recv() {
                Ok((at, came)) => drop(early.insert(at, came)),
                Err(error) => break error == TryRecvError::Disconnected,
            }
        };
        while let Some(came) = early.remove(&told) {
            listener.came(told, came);
            told += 1;
        }
        if told == files {
            listener.progress(told);
            return None;
        }
        if let Some(why) = asked.or(ended.then_some(Why::Lost)) {
            let waiting = early.len();
            early
                .into_iter()
                .for_each(|(at, came)| listener.came(at, came));
            listener.progress(told + waiting);
            return Some(why);
        }
        listener.progress(told + early.len());
        sleep(PAUSE);
    }
}

/// What comes of a file, whose bytes are read into `room`.
fn came(found: &Found, task: &Task, room: &mut Vec<u8>) -> Came {
    let manifest = task.manifest.as_ref();
    let entry = match found.what {
        What::Given | What::Listed => manifest.and_then(|manifest| manifest.entry(&found.path)),
        _ => None,
    };
    let outcome = match &found.what {
        What::Unreadable(why) => Outcome::Kept(Kept::Unreadable, why.clone()),
        What::Skipped(why) => Outcome::Skipped(why.to_string(), Skipped::ByName),
        What::Input => read_input(room).map_or_else(unread, |()| judged(None, entry, task, room)),
        What::Given | What::Listed => match file::read(&found.path, room) {
            Ok(stamp) => of_file(found, stamp, entry, task, room),
            Err(error) => unread(error),
        },
    };
    Came { outcome, entry }
}

fn unread(error: Unread) -> Outcome {
    let kept = match error {
        Unread::Changed => Kept::Changed,
        _ => Kept::Unreadable,
    };
    Outcome::Kept(kept, error.to_string())
}

/// What comes of a file that was read: one that the run itself writes or is told by is no capture.
fn of_file(
    found: &Found,
    stamp: Stamp,
    entry: Option<usize>,
    task: &Task,
    bytes: &[u8],
) -> Outcome {
    let is_report = task.own_files.contains(&stamp.identity());
    let manifest = task.manifest.as_ref().map(|manifest| manifest.identity);
    let own = match (is_report, manifest == Some(stamp.identity())) {
        (true, _) => "this report is written to it",
        (_, true) => "it is the manifest",
        _ => return judged(Some(stamp), entry, task, bytes),
    };
    match found.what {
        What::Given => Outcome::Kept(Kept::Unreadable, own.to_string()),
        _ => Outcome::Skipped(own.to_string(), Skipped::Own),
    }
}

/// What the judge says of these bytes, if the manifest lets them pass.
fn judged(stamp: Option<Stamp>, entry: Option<usize>, task: &Task, bytes: &[u8]) -> Outcome {
    let size = stamp.map_or(bytes.len() as u64, |stamp| stamp.size());
    if let Some(manifest) = &task.manifest {
        let Some(entry) = entry else {
            let why = "the manifest does not name it";
            return Outcome::Kept(Kept::Unlisted, why.to_string());
        };
        if let Some(why) = manifest.difference(entry, size, bytes) {
            return Outcome::Kept(Kept::Differs, why);
        }
    }
    let answer = |model: &Model| {
        let begun = Instant::now();
        let answer = judge(bytes, *model, task.budget);
        (*model, answer, begun.elapsed())
    };
    let answers: Vec<_> = task.models.iter().map(answer).collect();
    // Both testers load the same history of a file, so that one answer tells how far it was read.
    let counts = answers
        .first()
        .and_then(|(_, answer, _)| count(bytes, answer));
    let wanted = task.digests && bytes.len() <= LONGEST_FILE;
    Outcome::Judged(Judged {
        answers,
        counts,
        size,
        digest: wanted.then(|| sha256(bytes)),
        stamp,
    })
}

/// Reads standard input, up to one byte more than a capture can have.
fn read_input(room: &mut Vec<u8>) -> Result<(), Unread> {
    room.clear();
    let most = LONGEST_FILE as u64 + 1;
    io::stdin().lock().take(most).read_to_end(room)?;
    Ok(())
}
