//! Where answers go: standard output, as text or as JSON, and standard error.

use crate::display::plain;
use crate::files::reason;
use crate::json::Json;
use crate::notes;
use crate::report::{Report, Style};
use crate::streams;
use base::{Failure, Status};
use std::io::{self, ErrorKind, IsTerminal, Write};

/// When to colour.
#[derive(Clone, Copy, Debug, PartialEq, Eq)]
pub enum Colour {
    /// On terminals that are not dumb, unless NO_COLOR is set.
    Auto,
    /// Always.
    Always,
    /// Never.
    Never,
}

/// What the answers of a command go to.
pub struct Console {
    /// The command's name.
    command: String,
    /// Whether answers are written as JSON.
    pub json: bool,
    /// Whether nothing but errors is written.
    pub quiet: bool,
    /// The colours of answers.
    pub style: Style,
    /// Whether the reader of standard output has gone away.
    gone: bool,
}

impl Console {
    /// The console of a command.
    pub fn new(command: &str, json: bool, quiet: bool, colour: Colour) -> Console {
        let colour = match colour {
            Colour::Auto => io::stdout().is_terminal() && allows_colour(),
            Colour::Always => true,
            Colour::Never => false,
        };
        Console {
            command: command.to_string(),
            json,
            quiet,
            style: Style {
                colour: colour && !json,
            },
            gone: false,
        }
    }

    /// Says an answer, and hands its status on.
    pub fn answer(&mut self, report: Report) -> Result<Status, Failure> {
        if self.json {
            let mut fields = self.heading(report.status);
            fields.extend(report.json);
            self.line(&Json::Object(fields).to_string())?;
        } else {
            self.text(&report.text)?;
            if !self.quiet {
                complain(&report.aside);
            }
        }
        self.tell_notes();
        Ok(report.status)
    }

    /// Says what was noted on inputs, unless nothing is to be said.
    pub fn tell_notes(&self) {
        let notes = notes::take();
        if !self.quiet {
            complain(&notes);
        }
    }

    /// The fields with which each JSON object of the command begins.
    pub fn heading(&self, status: Status) -> Vec<(&'static str, Json)> {
        vec![
            ("command", Json::from(self.command.as_str())),
            ("status", Json::from(u32::from(status.code()))),
        ]
    }

    /// Writes a line to standard output.
    pub fn line(&mut self, line: &str) -> Result<(), Failure> {
        self.text(&format!("{line}\n"))
    }

    /// Writes to standard output, unless nothing is to be said.
    pub fn text(&mut self, text: &str) -> Result<(), Failure> {
        if self.quiet {
            return Ok(());
        }
        self.bytes(text.as_bytes())
    }

    /// Writes bytes to standard output. A reader that has gone away is no error.
    pub fn bytes(&mut self, bytes: &[u8]) -> Result<(), Failure> {
        if self.gone {
            return Ok(());
        }
        match streams::output().and_then(|mut out| out.write_all(bytes)) {
            Err(error) if error.kind() == ErrorKind::BrokenPipe => {
                self.gone = true;
                Ok(())
            }
            written => written.map_err(|error| {
                let message = format!("the answer cannot be written ({})", reason(&error));
                Failure::new(Status::BrokenOutput, message)
            }),
        }
    }

    /// Whether the reader of standard output has gone away, so that nobody sees what is written.
    pub fn is_gone(&self) -> bool {
        self.gone
    }

    /// Says why there is no answer; `usage` is how the command is called.
    pub fn fail(&mut self, failure: &Failure, usage: Option<&str>) -> Status {
        let message = failure.message.as_str();
        if self.json && failure.status != Status::BrokenOutput {
            let mut fields = self.heading(failure.status);
            fields.extend([("verdict", Json::from("error")), ("message", Json::from(message))]);
            return match self.line(&Json::Object(fields).to_string()) {
                Ok(()) => failure.status,
                Err(broken) => self.fail(&broken, None),
            };
        }
        let name = match self.command.as_str() {
            "desk" => String::new(),
            command => format!(" {command}"),
        };
        complain(&format!("desk{name}: {}\n", plain(message)));
        if failure.status == Status::Usage {
            complain(&usage.map(|line| format!("{line}\n")).unwrap_or_default());
        }
        failure.status
    }
}

/// Whether the terminal, if there is one, knows nothing but plain lines.
pub fn is_plain_terminal() -> bool {
    std::env::var_os("TERM").is_some_and(|kind| kind == "dumb")
}

/// Whether colour is wanted where the output is a terminal: not on a dumb one, nor where NO_COLOR is set.
fn allows_colour() -> bool {
    !is_plain_terminal() && std::env::var_os("NO_COLOR").is_none_or(|set| set.is_empty())
}

/// Writes to standard error, as far as that goes.
pub fn complain(text: &str) {
    let _ = io::stderr().lock().write_all(text.as_bytes());
}
