//! Signals of the processes that tests start.

use std::os::unix::process::CommandExt;
use std::process::Command;

/// SIGHUP.
pub const HANGUP: i32 = 1;
/// SIGINT.
pub const INTERRUPT: i32 = 2;
/// SIGTERM.
pub const TERMINATE: i32 = 15;

/// After so many seconds a process that has not ended is ended by SIGALRM.
const PATIENCE: u32 = 60;

/// Lets signals do what they do by default, since tests that run in the background may have been told to ignore them, and
/// lets no process wait forever.
pub fn heed_signals(command: &mut Command) {
    extern "C" {
        fn signal(number: i32, action: usize) -> usize;
        fn alarm(seconds: u32) -> u32;
    }
    let heed = || {
        for number in [HANGUP, INTERRUPT, TERMINATE] {
            // SAFETY: 0 is SIG_DFL. `signal` may be called between fork and exec.
            unsafe { signal(number, 0) };
        }
        // SAFETY: takes a number, may be called between fork and exec, and stays set over exec.
        unsafe { alarm(PATIENCE) };
        Ok(())
    };
    // SAFETY: `heed` neither allocates nor takes locks.
    unsafe { command.pre_exec(heed) };
}
