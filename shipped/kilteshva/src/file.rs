//! Reading a capture from a file, so that half of one is not taken for the whole.
//!
//! The format has no end mark: a file that is cut behind an event is a shorter capture, and may be green where the whole
//! is not. So a file's size and times are compared before and after it is read.

use crate::{judge, Answer, Model, LONGEST_FILE};
use std::fmt;
use std::fs::{self, File, Metadata, OpenOptions};
use std::io::{self, Read};
use std::os::unix::fs::{MetadataExt, OpenOptionsExt};
use std::path::Path;
use std::time::{Duration, SystemTime};

/// Opens a FIFO that took a file's place without waiting for its writer.
const O_NONBLOCK: i32 = 0o4000;

/// Why a capture could not be read.
#[derive(Debug)]
#[non_exhaustive]
pub enum Unread {
    /// It can't be opened or read.
    Io(io::Error),
    /// It is a folder, a FIFO, a socket or a device.
    NotAFile,
    /// It changed while it was read, or another file took its place: it may still be being written.
    Changed,
}

impl From<io::Error> for Unread {
    fn from(error: io::Error) -> Self {
        Unread::Io(error)
    }
}

impl fmt::Display for Unread {
    fn fmt(&self, f: &mut fmt::Formatter) -> fmt::Result {
        match self {
            Unread::Io(error) => error.fmt(f),
            Unread::NotAFile => f.write_str("it is not a file"),
            Unread::Changed => {
                f.write_str("it changed while it was read: it may still be being written")
            }
        }
    }
}

impl std::error::Error for Unread {}

/// Which file it is, its size and its times: whoever writes to a file changes one of these.
#[derive(Clone, Copy, Debug, Eq, PartialEq)]
pub struct Stamp {
    device: u64,
    inode: u64,
    size: u64,
    modified: (i64, i64),
    changed: (i64, i64),
}

impl Stamp {
    /// Of what stands at a path now.
    pub fn of(path: &Path) -> io::Result<Stamp> {
        fs::metadata(path).map(|metadata| Stamp::from(&metadata))
    }

    /// Of an open file.
    pub fn of_open(file: &File) -> io::Result<Stamp> {
        file.metadata().map(|metadata| Stamp::from(&metadata))
    }

    /// Device and inode: two names of one file have them in common.
    pub fn identity(&self) -> (u64, u64) {
        (self.device, self.inode)
    }

    /// The size in bytes.
    pub fn size(&self) -> u64 {
        self.size
    }

    /// How long ago the file was last changed, by the machine's clock; nothing if its times lie ahead of it.
    pub fn age(&self) -> Duration {
        let (seconds, nanoseconds) = self.modified.max(self.changed);
        let since = Duration::new(seconds.max(0) as u64, nanoseconds.max(0) as u32);
        let changed = SystemTime::UNIX_EPOCH + since;
        SystemTime::now()
            .duration_since(changed)
            .unwrap_or_default()
    }
}

impl From<&Metadata> for Stamp {
    fn from(metadata: &Metadata) -> Self {
        Stamp {
            device: metadata.dev(),
            inode: metadata.ino(),
            size: metadata.size(),
            modified: (metadata.mtime(), metadata.mtime_nsec()),
            changed: (metadata.ctime(), metadata.ctime_nsec()),
        }
    }
}

/// Reads a capture into `bytes`, up to one byte more than one can have: it is then refused whatever follows. The stamp is
/// that of the file as it was read: who compares it later with that of the path sees whether the file is still the same.
pub fn read(path: &Path, bytes: &mut Vec<u8>) -> Result<Stamp, Unread> {
    bytes.clear();
    let file = OpenOptions::new()
        .read(true)
        .custom_flags(O_NONBLOCK)
        .open(path)?;
    let before = file.metadata()?;
    if !before.is_file() {
        return Err(Unread::NotAFile);
    }
    let before = Stamp::from(&before);
    let due = before.size.min(LONGEST_FILE as u64 + 1);
    // No byte more is asked for than there is: an end that has moved shows in the size.
    (&file).take(due).read_to_end(bytes)?;
    if bytes.len() as u64 == due && Stamp::of_open(&file)? == before {
        Ok(before)
    } else {
        Err(Unread::Changed)
    }
}

/// Judges a corpus file by its path: [`judge`] of its bytes, if it can be read and did not change meanwhile.
///
/// A file that is written so slowly that it did not change while it was read is judged as far as it goes. Whoever hands
/// files over should write them under another name and rename them, or send their sizes and digests along.
pub fn judge_file(path: impl AsRef<Path>, model: Model, budget: u64) -> Result<Answer, Unread> {
    let path = path.as_ref();
    // To open a device may do something to it.
    if !fs::metadata(path)?.is_file() {
        return Err(Unread::NotAFile);
    }
    let mut bytes = Vec::new();
    let stamp = read(path, &mut bytes)?;
    match Stamp::of(path) {
        Ok(now) if now == stamp => Ok(judge(&bytes, model, budget)),
        _ => Err(Unread::Changed),
    }
}
