//! Where answers go: standard output, and standard error for what is no answer.

use std::io::{self, ErrorKind, Write};

use base::{Failure, Status};

/// Writes to standard output at once. The failure has no words where the reader has gone away: the command stops, and
/// nothing is said about it.
pub fn say(text: &str) -> Result<(), Failure> {
    let mut out = io::stdout().lock();
    let written = out.write_all(text.as_bytes()).and_then(|()| out.flush());
    written.map_err(|error| {
        let message = match error.kind() {
            ErrorKind::BrokenPipe => String::new(),
            _ => format!("the answer cannot be written ({error})"),
        };
        Failure::new(Status::BrokenOutput, message)
    })
}

/// Writes a line to standard output.
pub fn say_line(line: &str) -> Result<(), Failure> {
    say(&format!("{line}\n"))
}

/// Writes a line to standard error, as far as that goes.
pub fn complain(line: &str) {
    let _ = writeln!(io::stderr().lock(), "{line}");
}
