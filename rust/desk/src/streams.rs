//! The standard streams as the caller left them. Rust's runtime opens /dev/null in place of those that are closed, before
//! `main`; and its own handles take a stream that is not open for reading for empty, and one that is not open for writing
//! for one that takes everything. So each is looked at before the runtime starts, and used as a file.

#![allow(unsafe_code)]

use std::fs::File;
use std::io;
use std::os::fd::{AsFd, BorrowedFd};
use std::os::unix::ffi::OsStrExt;
use std::path::Path;
use std::sync::atomic::{AtomicBool, Ordering};

/// F_GETFD, which asks for a descriptor's flags.
const FLAGS: i32 = 1;

static INPUT_CLOSED: AtomicBool = AtomicBool::new(false);
static OUTPUT_CLOSED: AtomicBool = AtomicBool::new(false);

/// The C library, which std links anyway.
mod library {
    extern "C" {
        /// Asks about a descriptor; -1 where there is none.
        pub fn fcntl(descriptor: i32, question: i32, ...) -> i32;
    }
}

/// The loader calls what stands in this section before `main`, and so before Rust's runtime.
#[cfg(target_os = "linux")]
#[used]
#[link_section = ".init_array"]
static BEFORE_MAIN: extern "C" fn() = look;

/// Notes which of the streams are closed.
extern "C" fn look() {
    for (descriptor, closed) in [(0, &INPUT_CLOSED), (1, &OUTPUT_CLOSED)] {
        // SAFETY: F_GETFD takes no third argument and changes nothing; any number may be asked about.
        let flags = unsafe { library::fcntl(descriptor, FLAGS) };
        closed.store(flags == -1, Ordering::Relaxed);
    }
}

/// Standard input, as a file.
pub fn input() -> io::Result<File> {
    open(&INPUT_CLOSED, "it is closed", io::stdin().as_fd())
}

/// Standard output, as a file.
pub fn output() -> io::Result<File> {
    open(&OUTPUT_CLOSED, "standard output is closed", io::stdout().as_fd())
}

fn open(closed: &AtomicBool, why: &str, stream: BorrowedFd<'_>) -> io::Result<File> {
    if closed.load(Ordering::Relaxed) {
        return Err(io::Error::other(why.to_string()));
    }
    stream.try_clone_to_owned().map(File::from)
}

/// Whether a path is a name of standard input.
pub fn is_input(path: &Path) -> bool {
    ["/dev/stdin", "/dev/fd/0", "/proc/self/fd/0"]
        .map(Path::new)
        .contains(&path)
}

/// Whether a path is a name of standard output.
pub fn is_output(path: &Path) -> bool {
    ["/dev/stdout", "/dev/fd/1", "/proc/self/fd/1"]
        .map(Path::new)
        .contains(&path)
}

/// Whether a path is the name of an open descriptor, and not that of a file.
pub fn is_descriptor(path: &Path) -> bool {
    let of_process = |parent: &Path| parent.starts_with("/proc") && parent.as_os_str().as_bytes().ends_with(b"/fd");
    path.parent()
        .is_some_and(|parent| parent == Path::new("/dev/fd") || of_process(parent))
}
