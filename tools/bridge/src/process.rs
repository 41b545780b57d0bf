//! A process with a time limit, its output and its wall time.

use std::io::{self, Read};
use std::process::Command;
use std::sync::mpsc;
use std::thread;
use std::time::{Duration, Instant};

use base::arguments::Arguments;
use base::{Failure, Status};

use crate::commands::LIMIT;

/// What a process did.
pub struct Run {
    /// What it wrote to standard output and standard error; empty where it was ended.
    pub text: String,
    /// From its start to its end, or to the time limit.
    pub time: Duration,
    /// Its exit status, if it ended by itself.
    pub status: Option<i32>,
    /// Whether it was ended at the time limit.
    pub ended: bool,
}

/// The time limit of a process.
pub fn limit(arguments: &Arguments, usual: u64) -> Result<Duration, Failure> {
    Ok(Duration::from_secs(arguments.number(LIMIT.name, usual)?))
}

/// A process that cannot be run.
pub fn failed(error: &io::Error) -> Failure {
    Failure::new(Status::System, error.to_string())
}

/// Runs a command; past the limit it is killed. Its output's end is waited for, since a process cannot be waited for
/// with a limit; the program must not leave its output to others.
pub fn run(mut command: Command, limit: Duration) -> Result<Run, Failure> {
    let (mut reader, writer) = io::pipe().map_err(|error| failed(&error))?;
    command
        .stdout(writer.try_clone().map_err(|error| failed(&error))?)
        .stderr(writer);
    let begin = Instant::now();
    let mut child = command.spawn().map_err(|error| failed(&error))?;
    drop(command); // its ends of the pipe
    let (sender, receiver) = mpsc::channel();
    thread::spawn(move || {
        let mut bytes = Vec::new();
        let _ = reader.read_to_end(&mut bytes);
        let _ = sender.send(bytes);
    });
    let output = receiver.recv_timeout(limit).ok();
    if output.is_none() {
        child.kill().map_err(|error| failed(&error))?;
    }
    let status = child.wait().map_err(|error| failed(&error))?;
    Ok(Run {
        time: begin.elapsed(),
        status: status.code(),
        ended: output.is_none(),
        text: String::from_utf8_lossy(&output.unwrap_or_default()).into_owned(),
    })
}
