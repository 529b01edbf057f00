//! Standard output.

use crate::tally::TROUBLE;
use kilteshva::file::Stamp;
use std::fs::File;
use std::io::{self, Write};
use std::os::fd::{AsFd, BorrowedFd};
use std::process;
use std::sync::atomic::{AtomicBool, Ordering};

const STDOUT: i32 = 1;
const F_GETFD: i32 = 1;

/// Whether standard output was closed when the program was started.
static CLOSED: AtomicBool = AtomicBool::new(false);

extern "C" {
    fn fcntl(fd: i32, command: i32, ...) -> i32;
}

/// Rust opens what is closed anew, on nothing, before `main`: whoever wants to know has to look earlier.
#[used]
#[link_section = ".init_array"]
static LOOK: extern "C" fn() = look;

extern "C" fn look() {
    // SAFETY: this command of `fcntl` only asks whether there is such a descriptor.
    let flags = unsafe { fcntl(STDOUT, F_GETFD) };
    CLOSED.store(flags == -1, Ordering::SeqCst);
}

/// Whether there is no standard output, so that no report can be handed over.
pub fn is_closed() -> bool {
    CLOSED.load(Ordering::SeqCst)
}

/// The files that standard output and standard error are written to, by device and inode.
pub fn own_files() -> Vec<(u64, u64)> {
    let file = |fd: BorrowedFd| {
        let file = File::from(fd.try_clone_to_owned().ok()?);
        let is_file = file.metadata().is_ok_and(|metadata| metadata.is_file());
        let stamp = Stamp::of_open(&file).ok().filter(|_| is_file)?;
        Some(stamp.identity())
    };
    let (stdout, stderr) = (io::stdout(), io::stderr());
    [file(stdout.as_fd()), file(stderr.as_fd())]
        .into_iter()
        .flatten()
        .collect()
}

/// Prints these lines. A report that can't be handed over whole is not green: the command ends there.
pub fn print(lines: &str) {
    let mut stdout = io::stdout();
    if let Err(error) = stdout
        .write_all(lines.as_bytes())
        .and_then(|()| stdout.flush())
    {
        if error.kind() != io::ErrorKind::BrokenPipe {
            complain(&format!("the report can't be written: {error}"));
        }
        process::exit(TROUBLE.into());
    }
}

/// Says on standard error what went wrong. Whoever can't be told still gets the exit status.
pub fn complain(message: &str) {
    let _ = writeln!(io::stderr(), "kilteshva: {message}");
}
