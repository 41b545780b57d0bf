//! Exit statuses, and why a command has no answer.

use std::process::ExitCode;

/// The exit statuses, by sysexits.h from 64 on. The greater, the less is known of what was asked.
#[derive(Clone, Copy, Debug, PartialEq, Eq, PartialOrd, Ord)]
pub enum Status {
    /// What was asked holds.
    Holds = 0,
    /// It does not hold.
    DoesNotHold = 1,
    /// The input was refused.
    Refused = 2,
    /// The command line is not understood.
    Usage = 64,
    /// An input cannot be read.
    NoInput = 66,
    /// A program that is needed is missing.
    Unavailable = 69,
    /// The command disagrees with the library, which is an error in the command.
    Defect = 70,
    /// A process or a thread cannot be run.
    System = 71,
    /// An output cannot be made.
    NoOutput = 73,
    /// Writing the answer fails.
    BrokenOutput = 74,
    /// A signal ended the run before its end: 130, as shells have it for the commonest, whichever it was.
    Interrupted = 130,
}

impl Status {
    /// Its number.
    pub fn code(self) -> u8 {
        self as u8
    }
}

impl From<Status> for ExitCode {
    fn from(status: Status) -> ExitCode {
        ExitCode::from(status.code())
    }
}

/// Why there is no answer.
#[derive(Debug)]
pub struct Failure {
    /// The exit status.
    pub status: Status,
    /// What is wrong, for people.
    pub message: String,
}

impl Failure {
    /// A failure.
    pub fn new(status: Status, message: impl Into<String>) -> Failure {
        Failure {
            status,
            message: message.into(),
        }
    }

    /// The command line is not understood.
    pub fn usage(message: impl Into<String>) -> Failure {
        Failure::new(Status::Usage, message)
    }
}
