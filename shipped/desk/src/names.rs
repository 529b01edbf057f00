//! Names of files for people and for programs: no name can end a line, hide another or change what a terminal shows, and
//! two names that differ are shown differently.

use std::os::unix::ffi::OsStrExt;
use std::path::Path;

/// A name within a line of text. What can't be seen is escaped, and so are backslashes and bytes that are no text.
pub fn shown(path: &Path) -> String {
    let mut shown = String::new();
    for part in path.as_os_str().as_bytes().utf8_chunks() {
        for letter in part.valid().chars() {
            match letter {
                '\\' => shown += "\\\\",
                _ if is_plain(letter) => shown.push(letter),
                _ => shown.extend(letter.escape_default()),
            }
        }
        for byte in part.invalid() {
            shown += &format!("\\x{byte:02x}");
        }
    }
    shown
}

/// A text as a JSON string; what can't be seen is escaped.
pub fn quoted(text: &str) -> String {
    let mut quoted = String::from("\"");
    for letter in text.chars() {
        match letter {
            '"' | '\\' => quoted.extend(['\\', letter]),
            _ if is_plain(letter) => quoted.push(letter),
            _ => {
                for unit in letter.encode_utf16(&mut [0; 2]) {
                    quoted += &format!("\\u{unit:04x}");
                }
            }
        }
    }
    quoted.push('"');
    quoted
}

/// The bytes of a name that is no text, in hex: its name as JSON could be that of another file.
pub fn untold(path: &Path) -> Option<String> {
    let bytes = path.as_os_str().as_bytes();
    let hex = || bytes.iter().map(|byte| format!("{byte:02x}")).collect();
    std::str::from_utf8(bytes).is_err().then(hex)
}

/// Whether a letter is shown as it is, in its place. Std escapes what it knows not to be so: controls, marks that turn
/// the direction of text, separators of lines, letters without width. What combines with the letter before it stays.
fn is_plain(letter: char) -> bool {
    if letter.is_ascii() {
        return !letter.is_ascii_control();
    }
    let after_another = String::from_iter(['a', letter]);
    after_another.escape_debug().count() == 2
}

#[cfg(test)]
mod tests {
    use super::*;
    use std::collections::BTreeSet;
    use std::ffi::OsStr;

    fn path(bytes: &[u8]) -> &Path {
        Path::new(OsStr::from_bytes(bytes))
    }

    #[test]
    fn a_name_stays_within_its_line() {
        assert_eq!(shown(path(b"a\nOrder b\x1b[2K")), "a\\nOrder b\\u{1b}[2K");
        let plain = "nacht/ä b's \"c\" 日 a\u{308}.raw";
        assert_eq!(shown(Path::new(plain)), plain);
    }

    #[test]
    fn what_can_not_be_seen_is_escaped() {
        for letter in [
            '\u{202e}',
            '\u{202a}',
            '\u{2066}',
            '\u{2028}',
            '\u{2029}',
            '\u{200b}',
            '\u{200f}',
            '\u{feff}',
            '\u{ad}',
            '\u{a0}',
            '\u{3000}',
            '\u{85}',
            '\u{7f}',
            '\u{e0041}',
            '\u{0}',
            '\t',
        ] {
            let name = format!("a{letter}b");
            assert!(shown(Path::new(&name)).contains('\\'), "{letter:?}");
            assert!(shown(Path::new(&name)).is_ascii(), "{letter:?}");
            assert!(quoted(&name).contains("\\u"), "{letter:?}");
        }
    }

    #[test]
    fn names_that_differ_are_shown_differently() {
        let names: [&[u8]; 9] = [
            b"\xff",
            b"\xfe",
            "\u{fffd}".as_bytes(),
            b"\\xff",
            b"\\\\xff",
            b"a\n",
            b"a\\n",
            b"\xc3",
            "\u{202e}".as_bytes(),
        ];
        let texts: BTreeSet<_> = names.iter().map(|name| shown(path(name))).collect();
        let pairs = names.iter().map(|name| {
            let file = quoted(&path(name).to_string_lossy());
            (file, untold(path(name)))
        });
        let pairs: BTreeSet<_> = pairs.collect();
        assert_eq!((texts.len(), pairs.len()), (names.len(), names.len()));
    }

    #[test]
    fn text_is_quoted() {
        assert_eq!(
            quoted("a \"b\" \\ c\n\u{7f}ä\u{2028}\u{e0041}"),
            r#""a \"b\" \\ c\u000a\u007fä\u2028\udb40\udc41""#
        );
    }
}
