//! What was handed over, by the word of whoever did: a list of captures with their sizes and digests.

use crate::digest::{hex, sha256, Digest};
use crate::names::shown;
use kilteshva::file::Stamp;
use kilteshva::LONGEST_FILE;
use std::collections::BTreeMap;
use std::ffi::OsStr;
use std::fs;
use std::os::unix::ffi::OsStrExt;
use std::path::{Path, PathBuf};

pub struct Manifest {
    entries: Vec<Entry>,
    /// The entries, by where their files lie.
    places: BTreeMap<PathBuf, usize>,
    /// The manifest's own file, by device and inode.
    pub identity: (u64, u64),
}

struct Entry {
    /// The file's path, from the manifest's own.
    path: PathBuf,
    size: u64,
    digest: Digest,
}

impl Manifest {
    pub fn read(path: &Path) -> Result<Manifest, String> {
        let told = |why: String| format!("the manifest {}: {why}", shown(path));
        let identity = Stamp::of(path).map_err(|error| told(error.to_string()))?;
        let text = fs::read(path).map_err(|error| told(error.to_string()))?;
        let entries = entries(&text, path.parent().unwrap_or(Path::new(""))).map_err(told)?;
        let mut places = BTreeMap::new();
        for (at, entry) in entries.iter().enumerate() {
            if places.insert(place(&entry.path), at).is_some() {
                return Err(told(format!("{} is named twice", shown(&entry.path))));
            }
        }
        Ok(Manifest {
            entries,
            places,
            identity: identity.identity(),
        })
    }

    /// Which entry is of this file.
    pub fn entry(&self, path: &Path) -> Option<usize> {
        self.places.get(&place(path)).copied()
    }

    /// What an entry says otherwise of a file's size and bytes.
    pub fn difference(&self, entry: usize, size: u64, bytes: &[u8]) -> Option<String> {
        let entry = &self.entries[entry];
        if entry.size != size {
            let told = "its size is not the manifest's";
            return Some(format!("{told}: {size} bytes, and not {}", entry.size));
        }
        // A longer one was not read to its end, and is refused.
        let digest = sha256(bytes);
        if bytes.len() <= LONGEST_FILE && entry.digest != digest {
            let told = "its SHA-256 is not the manifest's";
            return Some(format!("{told}: {}", hex(&digest)));
        }
        None
    }

    /// The files of those entries that are not among these.
    pub fn others<'a>(&'a self, met: &'a [bool]) -> impl Iterator<Item = &'a Path> {
        let unmet = self.entries.iter().zip(met).filter(|(_, met)| !**met);
        unmet.map(|(entry, _)| entry.path.as_path())
    }

    /// How many captures there have to be.
    pub fn len(&self) -> usize {
        self.entries.len()
    }
}

/// The entries of a manifest that stands in a folder, or which line is none.
fn entries(text: &[u8], folder: &Path) -> Result<Vec<Entry>, String> {
    let mut lines: Vec<&[u8]> = text.split(|byte| *byte == b'\n').collect();
    // The last line ends too; what is behind that is no line.
    if lines.pop() != Some(b"") {
        return Err("its last line is cut off".to_string());
    }
    if lines.is_empty() {
        return Err("it names no capture".to_string());
    }
    let entry = |(at, line): (usize, &&[u8])| {
        let wrong = || {
            let form = "SHA256  SIZE  NAME, with two blanks between";
            format!("line {} is not of the form {form}", at + 1)
        };
        entry(line, folder).ok_or_else(wrong)
    };
    lines.iter().enumerate().map(entry).collect()
}

fn entry(line: &[u8], folder: &Path) -> Option<Entry> {
    let (digest, rest) = line.split_at_checked(64)?;
    let rest = rest.strip_prefix(b"  ")?;
    let end = rest.iter().position(|byte| *byte == b' ')?;
    let (size, name) = rest.split_at(end);
    let name = Path::new(OsStr::from_bytes(name.strip_prefix(b"  ")?));
    name.file_name()?;
    let is_number = !size.is_empty() && size.iter().all(u8::is_ascii_digit);
    let size = std::str::from_utf8(size).ok().filter(|_| is_number)?;
    Some(Entry {
        path: folder.join(name),
        size: size.parse().ok()?,
        digest: unhexed(digest)?,
    })
}

fn unhexed(digits: &[u8]) -> Option<Digest> {
    let value = |digit: u8| char::from(digit).to_digit(16);
    let mut digest = [0; 32];
    for (byte, pair) in digest.iter_mut().zip(digits.chunks_exact(2)) {
        *byte = (16 * value(pair[0])? + value(pair[1])?) as u8;
    }
    Some(digest)
}

/// Where a file lies, however its folder was reached.
fn place(path: &Path) -> PathBuf {
    let folder = match path.parent() {
        Some(folder) if folder != Path::new("") => folder,
        _ => Path::new("."),
    };
    let folder = fs::canonicalize(folder).unwrap_or_else(|_| folder.to_path_buf());
    folder.join(path.file_name().unwrap_or_default())
}

#[cfg(test)]
mod tests {
    use super::*;

    const DIGEST: &str = "e3b0c44298fc1c149afbf4c8996fb92427ae41e4649b934ca495991b7852b855";

    fn read(text: &str) -> Result<Vec<Entry>, String> {
        entries(text.as_bytes(), Path::new("night"))
    }

    #[test]
    fn a_line_has_digest_size_and_name() {
        let entries =
            read(&format!("{DIGEST}  0  a b.raw\n{DIGEST}  17  in/c\n")).expect("entries");
        let told: Vec<_> = entries
            .iter()
            .map(|entry| (entry.path.as_path(), entry.size))
            .collect();
        assert_eq!(
            told,
            [
                (Path::new("night/a b.raw"), 0),
                (Path::new("night/in/c"), 17)
            ]
        );
        assert!(entries.iter().all(|entry| hex(&entry.digest) == DIGEST));
    }

    #[test]
    fn other_lines_are_refused() {
        let upper = DIGEST.to_uppercase();
        for (line, is_entry) in [
            (format!("{DIGEST}  0  a"), true),
            (format!("{upper}  0  a"), true),
            (format!("{DIGEST}  0  /a/b"), true),
            (format!("{DIGEST}  0   a"), true),
            (format!("{DIGEST}  0 a"), false),
            (format!("{DIGEST} 0  a"), false),
            (format!("{DIGEST}  a"), false),
            (format!("{DIGEST}  0  "), false),
            (format!("{DIGEST}  0  .."), false),
            (format!("{DIGEST}    a"), false),
            (format!("{DIGEST}  +1  a"), false),
            (format!("{DIGEST}  18446744073709551616  a"), false),
            (format!("{}g  0  a", &DIGEST[1..]), false),
            (format!("{}  0  a", &DIGEST[1..]), false),
            (format!("# {DIGEST}"), false),
            (String::new(), false),
        ] {
            assert_eq!(read(&format!("{line}\n")).is_ok(), is_entry, "{line}");
        }
        let first = format!("{DIGEST}  0  a\n");
        assert_eq!(
            read(&format!("{first}b\n"))
                .err()
                .map(|why| why[..6].to_string()),
            Some("line 2".to_string())
        );
    }

    #[test]
    fn a_manifest_that_is_cut_or_empty_is_refused() {
        assert_eq!(read("").err(), Some("it names no capture".to_string()));
        assert!(read(&format!("{DIGEST}  0  night-1.raw")).is_err());
    }

    #[test]
    fn size_and_bytes_are_compared() {
        let text = format!("{DIGEST}  0  a\n");
        let manifest = Manifest {
            entries: entries(text.as_bytes(), Path::new("")).expect("an entry"),
            places: BTreeMap::new(),
            identity: (0, 0),
        };
        assert_eq!(manifest.difference(0, 0, b""), None);
        let size = manifest.difference(0, 1, b"").expect("a difference");
        assert!(size.ends_with("1 bytes, and not 0"), "{size}");
        let bytes = manifest.difference(0, 0, b"a").expect("a difference");
        assert!(bytes.contains("SHA-256"), "{bytes}");
        assert_eq!(manifest.others(&[true]).count(), 0);
        assert_eq!(
            manifest.others(&[false]).collect::<Vec<_>>(),
            [Path::new("a")]
        );
    }
}
