//! Runs that change one file wait for each other, so that none undoes what another has done.

#![allow(unsafe_code)]

use std::fs::File;
use std::os::fd::AsRawFd;

/// LOCK_EX: one at a time.
const EXCLUSIVE: i32 = 2;

/// The C library, which std links anyway.
mod library {
    extern "C" {
        /// Locks an open file, or waits until it can; -1 where its file system knows no locks. Closing it unlocks it.
        pub fn flock(descriptor: i32, operation: i32) -> i32;
    }
}

/// Waits until no other run has a file locked, and locks it until it is closed. Where there are no locks, it does without: a
/// change meanwhile is then seen when the file is replaced.
pub fn wait(file: &File) {
    // SAFETY: takes two numbers; the descriptor is open as long as the file is borrowed.
    unsafe { library::flock(file.as_raw_fd(), EXCLUSIVE) };
}
