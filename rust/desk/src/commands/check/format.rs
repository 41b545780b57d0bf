//! The forms of `desk check` that editors and code review read: what is found in each file, and nothing of those in which
//! nothing is.

use super::answer;
use crate::console::Console;
use crate::files::{Access, Name, Source};
use crate::finding::{Finding, Ground, Spot};
use crate::input;
use crate::report::{Report, Stop, Style};
use crate::sarif::Log;
use crate::text::Kind;
use base::arguments::{Arguments, Flag};
use base::{Failure, Status};
use std::ffi::OsStr;

/// The option that asks for one of them.
pub const FORMAT: Flag = Flag::valued("--format");

/// A form.
#[derive(Clone, Copy, Debug, PartialEq, Eq)]
pub enum Format {
    /// A line for each finding, as compilers write it.
    Gcc,
    /// One log of all files.
    Sarif,
}

impl Format {
    /// The one that is asked for.
    pub fn read(arguments: &Arguments) -> Result<Option<Format>, Failure> {
        let Some(word) = arguments.value(FORMAT.name) else {
            return Ok(None);
        };
        if arguments.has("--json") {
            return Err(Failure::usage("--format and --json are not given together"));
        }
        match word.to_str() {
            Some("gcc") => Ok(Some(Format::Gcc)),
            Some("sarif") => Ok(Some(Format::Sarif)),
            _ => Err(Failure::usage("--format takes gcc or sarif")),
        }
    }

    /// Answers about all files in it; the greatest status.
    pub fn answer(self, paths: &[&OsStr], console: &mut Console) -> Result<Status, Stop> {
        match self {
            Format::Gcc => lines(paths, console),
            Format::Sarif => log(paths, console),
        }
    }
}

fn lines(paths: &[&OsStr], console: &mut Console) -> Result<Status, Stop> {
    let mut greatest = Status::Holds;
    for path in paths {
        let found = input::source_of_vocabulary(path).and_then(|source| findings(path, source));
        let status = match found {
            Ok((status, findings)) => {
                let lines = findings.iter().map(|finding| finding.as_compilers_write(path));
                console.answer(Report::new(status, lines.collect(), Vec::new()))?
            }
            Err(failure) => console.fail(&failure, None),
        };
        greatest = greatest.max(status);
        if console.is_gone() {
            break;
        }
    }
    Ok(greatest)
}

fn log(paths: &[&OsStr], console: &mut Console) -> Result<Status, Stop> {
    let (mut log, mut greatest) = (Log::default(), Status::Holds);
    for path in paths {
        let source = input::source_of_vocabulary(path);
        let file = log.file(path, source.as_ref().ok().and_then(Source::whole));
        let status = match source.and_then(|source| findings(path, source)) {
            Ok((status, findings)) => {
                findings.iter().for_each(|finding| log.find(file, finding));
                status
            }
            Err(failure) => {
                log.fail(file, &failure);
                console.fail(&failure, None)
            }
        };
        greatest = greatest.max(status);
    }
    console.line(&log.finish(greatest).to_string())?;
    Ok(greatest)
}

/// What is found in a file that could be read, and the status.
fn findings(path: &OsStr, source: Source) -> Result<(Status, Vec<Finding>), Failure> {
    let name = source.name.clone();
    let style = Style { colour: false };
    let input = input::from(source, path, Access::Any, Kind::Vocabulary, style);
    match input.map(|input| answer(style, &input)) {
        Ok(report) => Ok((report.status, report.findings)),
        Err(Stop::Answer(report)) => Ok((report.status, report.findings)),
        Err(Stop::Failure(failure)) if failure.status == Status::Refused => {
            Ok((failure.status, of_kind(&name, &failure)))
        }
        Err(Stop::Failure(failure)) => Err(failure),
    }
}

/// A text that is not of a vocabulary: that is found in it, and no fault of the run.
fn of_kind(name: &Name, failure: &Failure) -> Vec<Finding> {
    let message = failure.message.as_str();
    let message = message.strip_prefix(&format!("{name}: ")).unwrap_or(message);
    vec![Finding {
        ground: Ground::Fault,
        spot: Spot::Line(1, 1),
        message: message.to_string(),
    }]
}
