//! Which files are to be judged.

use crate::stop::{Stop, Why};
use kilteshva::file::Stamp;
use std::ffi::{OsStr, OsString};
use std::fs::{self, FileType};
use std::io;
use std::path::{Path, PathBuf};
use std::vec::IntoIter;

/// What stands where a capture should.
#[derive(Debug, PartialEq)]
pub struct Found {
    pub path: PathBuf,
    pub what: What,
}

#[derive(Debug, PartialEq)]
pub enum What {
    /// A file that was given by its name.
    Given,
    /// A file in a folder.
    Listed,
    /// Standard input.
    Input,
    /// In a folder, and by its name no capture.
    Skipped(&'static str),
    /// Nothing can be judged there, and why.
    Unreadable(String),
}

/// The name that stands for standard input.
const INPUT: &str = "-";

const NO_FILE: &str = "neither a file nor a folder";

/// The files given, and all those in the folders given. Where the run has to end, what was found by then.
pub fn find(paths: &[PathBuf], stop: &Stop) -> (Vec<Found>, Option<Why>) {
    let mut finding = Finding {
        found: Vec::new(),
        stop,
    };
    for path in paths {
        if let Err(why) = finding.add_given(path) {
            return (finding.found, Some(why));
        }
    }
    (finding.found, None)
}

struct Finding<'a> {
    found: Vec<Found>,
    stop: &'a Stop,
}

/// A folder that was entered, and what is left of it.
struct Entered {
    path: PathBuf,
    identity: (u64, u64),
    entries: IntoIter<(OsString, io::Result<FileType>)>,
}

impl Finding<'_> {
    fn add(&mut self, path: &Path, what: What) {
        let path = path.to_path_buf();
        self.found.push(Found { path, what });
    }

    fn add_unreadable(&mut self, path: &Path, why: impl ToString) {
        self.add(path, What::Unreadable(why.to_string()));
    }

    fn add_given(&mut self, path: &Path) -> Result<(), Why> {
        if path.as_os_str() == INPUT {
            self.add(path, What::Input);
            return Ok(());
        }
        match fs::metadata(path) {
            Ok(metadata) if metadata.is_dir() => self.add_folder(path)?,
            Ok(metadata) if metadata.is_file() => self.add(path, What::Given),
            Ok(_) => self.add_unreadable(path, NO_FILE),
            Err(error) => self.add_unreadable(path, error),
        }
        Ok(())
    }

    /// Adds what a folder and those within it hold, sorted by name. The folders on the way are kept in a list, so that a deep
    /// one takes no stack.
    fn add_folder(&mut self, folder: &Path) -> Result<(), Why> {
        let before = self.found.len();
        let mut entered: Vec<Entered> = Vec::new();
        self.enter(folder.to_path_buf(), &mut entered);
        while let Some(inner) = entered.last_mut() {
            if let Some(why) = self.stop.asked() {
                return Err(why);
            }
            let Some((name, listed)) = inner.entries.next() else {
                entered.pop();
                continue;
            };
            let path = inner.path.join(&name);
            if let Some(why) = skipped(&name) {
                self.add(&path, What::Skipped(why));
                continue;
            }
            match followed(&path, listed) {
                Ok(file_type) if file_type.is_dir() => self.enter(path, &mut entered),
                Ok(file_type) if file_type.is_file() => self.add(&path, What::Listed),
                Ok(_) => self.add_unreadable(&path, NO_FILE),
                Err(error) => self.add_unreadable(&path, error),
            }
        }
        let is_skipped = |found: &Found| matches!(found.what, What::Skipped(_));
        if self.found[before..].iter().all(is_skipped) {
            self.add_unreadable(folder, "there is no capture in this folder");
        }
        Ok(())
    }

    fn enter(&mut self, path: PathBuf, entered: &mut Vec<Entered>) {
        let opened = Stamp::of(&path).and_then(|stamp| Ok((stamp.identity(), sorted(&path)?)));
        match opened {
            Ok((identity, _)) if entered.iter().any(|above| above.identity == identity) => {
                self.add_unreadable(&path, "a link leads back to a folder that it lies in");
            }
            Ok((identity, entries)) => entered.push(Entered {
                path,
                identity,
                entries: entries.into_iter(),
            }),
            Err(error) => self.add_unreadable(&path, error),
        }
    }
}

/// What stands at the end of a link.
fn followed(path: &Path, listed: io::Result<FileType>) -> io::Result<FileType> {
    match listed {
        Ok(link) if link.is_symlink() => fs::metadata(path).map(|to| to.file_type()),
        other => other,
    }
}

/// What a folder holds, by name, with what the folder's own list says it is: asking for each file would take as
/// long as all else here.
fn sorted(folder: &Path) -> io::Result<Vec<(OsString, io::Result<FileType>)>> {
    let entries: io::Result<Vec<_>> = fs::read_dir(folder)?
        .map(|entry| entry.map(|entry| (entry.file_name(), entry.file_type())))
        .collect();
    let mut entries = entries?;
    entries.sort_by(|(one, _), (other, _)| one.cmp(other));
    Ok(entries)
}

/// Why a name within a folder is no capture's: it is hidden, as the temporaries of copying tools are, or a note to the
/// reader.
fn skipped(name: &OsStr) -> Option<&'static str> {
    if name.as_encoded_bytes().starts_with(b".") {
        Some("hidden, as what a copying tool has not finished is")
    } else if name == "README.md" {
        Some("a note to the reader, by its name")
    } else {
        None
    }
}
