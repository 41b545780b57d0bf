//! Signals. Those that ask a run to end are caught while it would leave something half done, and otherwise end it at
//! once. The one of the file size limit is ignored, so that a write over the limit is an error like any other.

#![allow(unsafe_code)]

use std::sync::atomic::{AtomicBool, Ordering};

/// SIGHUP, SIGINT and SIGTERM: the terminal is closed, Ctrl-C, `kill`.
const ENDING: [i32; 3] = [1, 2, 15];
/// SIGXFSZ: a write goes over the file size limit.
const SIZE_LIMIT: i32 = 25;

/// SIG_IGN.
const IGNORED: usize = 1;
/// SIG_ERR.
const UNKNOWN: usize = usize::MAX;

/// Whether a signal was caught.
static CAUGHT: AtomicBool = AtomicBool::new(false);

/// The C library, which std links anyway.
mod library {
    extern "C" {
        /// Sets what a signal does: 0 its default, 1 nothing, else a function's address. Answers what it did before.
        pub fn signal(number: i32, action: usize) -> usize;
        /// Whether a call that waits ends with EINTR at a signal.
        pub fn siginterrupt(number: i32, interrupts: i32) -> i32;
    }
}

/// What a caught signal does.
extern "C" fn note(_number: i32) {
    CAUGHT.store(true, Ordering::Relaxed);
}

/// Sets what a signal does, and answers what it did before.
fn set(number: i32, action: usize) -> usize {
    // SAFETY: the action is IGNORED, `note`, or what `signal` itself has answered. `note` has the signature that is asked
    // for, lives as long as the program, and stores to an atomic, which a handler may do at any moment.
    unsafe { library::signal(number, action) }
}

/// Makes a write over the file size limit an error. Called once, at the start.
pub fn prepare() {
    set(SIZE_LIMIT, IGNORED);
}

/// Signals are caught as long as this lives; then they do again what they did before.
#[must_use = "signals are caught as long as this lives"]
pub struct Catching {
    before: [usize; ENDING.len()],
}

/// Starts to catch SIGHUP, SIGINT and SIGTERM, but for those that are ignored (`nohup`). May be called while they are
/// caught already.
///
/// A call that waits is ended by a caught signal: `Read::read` then answers `ErrorKind::Interrupted`, where `caught` is to
/// be asked. `read_to_end`, `read_exact`, `write_all` and `File::open` do not: they try again, and go on waiting. So do
/// not catch while one of them may wait, unless something else ends it. With several threads, it is the first whose call
/// is ended.
pub fn catch() -> Catching {
    Catching {
        before: ENDING.map(|number| {
            let before = set(number, note as extern "C" fn(i32) as usize);
            if before == IGNORED {
                set(number, IGNORED);
            } else {
                // SAFETY: takes two numbers, and changes nothing but whether calls are tried again.
                unsafe { library::siginterrupt(number, 1) };
            }
            before
        }),
    }
}

/// Whether a signal was caught since the start. The run is to end then, with `Status::Interrupted`.
pub fn caught() -> bool {
    CAUGHT.load(Ordering::Relaxed)
}

impl Drop for Catching {
    fn drop(&mut self) {
        for (number, before) in ENDING.into_iter().zip(self.before) {
            if before != UNKNOWN {
                set(number, before);
            }
        }
    }
}

#[cfg(test)]
mod tests {
    #![allow(clippy::unwrap_used)]

    use super::{catch, caught, set, ENDING};
    use std::io::{self, ErrorKind, Read};
    use std::os::unix::thread::{JoinHandleExt, RawPthread};
    use std::time::Duration;

    extern "C" {
        fn pthread_kill(thread: RawPthread, number: i32) -> i32;
    }

    #[test]
    fn a_read_that_waits_is_ended_while_signals_are_caught() {
        for number in ENDING {
            // It may be ignored where the tests run in the background.
            let at_first = set(number, 0);
            let catching = catch();
            let (mut reader, writer) = io::pipe().unwrap();
            let waiting = std::thread::spawn(move || reader.read(&mut [0]));
            // Sent until it is heard, since the thread may not wait yet; the writer's end would end a deaf one.
            for _ in 0..2000 {
                if waiting.is_finished() {
                    break;
                }
                // SAFETY: the thread was not joined, so it is known; the signal is caught.
                unsafe { pthread_kill(waiting.as_pthread_t(), number) };
                std::thread::sleep(Duration::from_millis(1));
            }
            drop(writer);
            assert_eq!(waiting.join().unwrap().unwrap_err().kind(), ErrorKind::Interrupted);
            assert!(caught());
            // Within, signals are caught still; behind, they do what they did.
            drop(catch());
            assert!(set(number, 1) > 1);
            drop(catching);
            assert_eq!(set(number, at_first), 0);
        }
    }
}
