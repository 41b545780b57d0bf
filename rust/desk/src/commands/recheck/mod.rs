//! `desk recheck`.

pub mod asked;
pub mod check;
mod hashed;
pub mod kept;
pub mod line;
mod order;
pub mod outcome;
mod page;
mod progress;
mod summary;
pub mod table;

use super::WORDS;
use crate::console::Console;
use crate::display::plain;
use crate::files::{self, unreadable, Access, Digest, Name, Opened};
use crate::input::{self, Input};
use crate::json::Json;
use crate::report::{Report, Stop, Style};
use crate::signals;
use base::arguments::{Arguments, Flag};
use base::{Failure, Status};
use check::Wanted;
use hashed::Hashed;
use order::{Next, Piece, Results};
use outcome::{Outcome, Told};
use page::Page;
use progress::Progress;
use std::ffi::OsStr;
use std::io;
use std::path::{Path, PathBuf};
use std::sync::Arc;
use std::time::Duration;
use summary::{End, Output, Tally};

const STRICT: Flag = Flag::switch("--strict");
const HTML: Flag = Flag::valued("--html");
/// The options.
pub const FLAGS: &[Flag] = &[
    STRICT,
    Flag::switch("--explain"),
    WORDS,
    HTML,
    Flag::valued("--jobs").letter('j'),
];

/// The most workers.
const JOBS: u64 = 64;
/// How often a run that waits looks for a signal.
const WAIT: Duration = Duration::from_millis(50);

pub fn run(arguments: &Arguments, console: &mut Console) -> Result<Status, Stop> {
    let [path] = arguments.words(["TABLE"])?;
    let jobs = arguments.number("--jobs", 1)?;
    if !(1..=JOBS).contains(&jobs) {
        return Err(Failure::usage(format!("--jobs takes a number from 1 to {JOBS}")).into());
    }
    let words = read_words(arguments, console.style)?;
    let table = files::open(path, Access::Any)?;
    let _guard = signals::catch();
    let page = begin_page(arguments, &table, words.as_ref())?;
    let wanted = Wanted {
        strict: arguments.has(STRICT.name),
        explain: arguments.has("--explain") || words.is_some(),
        files: kept::Files {
            directory: directory(path),
            notes: page.is_some(),
            words: words.map(|(words, _)| Arc::new(words)),
        },
    };
    let mut teller = Teller {
        name: table.name.clone(),
        progress: Progress::new(table.length, console.quiet),
        console,
        tally: Tally::new(),
        last: 0,
        read: 0,
        page,
    };
    let source = Hashed {
        taken: teller.page.as_ref().map(Page::taken),
        source: table,
    };
    let ended = order::start(source, &wanted, jobs as usize).and_then(|results| teller.tell_all(results));
    teller.progress.clear();
    let (end, failure) = ended?;
    teller.conclude(end, failure)
}

/// A text, and its bytes.
type Words = (Input, Digest);

/// Begins the page, if one is wanted. Its place may be that of no input.
fn begin_page(arguments: &Arguments, table: &Opened, words: Option<&Words>) -> Result<Option<Page>, Failure> {
    let Some(path) = arguments.value(HTML.name) else {
        return Ok(None);
    };
    if path == "-" {
        return Err(Failure::usage("--html takes a file, and '-' is none"));
    }
    let noted = words.map(|(words, digest)| (words.name.clone(), digest.clone()));
    let page = Page::begin(path, noted, arguments.has(STRICT.name))?;
    page.spare(table.id)?;
    page.spare(words.and_then(|(words, _)| words.id))?;
    Ok(Some(page))
}

/// The text that --words names.
fn read_words(arguments: &Arguments, style: Style) -> Result<Option<Words>, Stop> {
    let Some(path) = arguments.value(WORDS.name) else {
        return Ok(None);
    };
    let source = input::text_source(path)?;
    let digest = source.digest();
    let (words, _) = input::of_text(source, style)?;
    Ok(Some((words, digest)))
}

/// The directory in which the table's files are looked for.
pub fn directory(table: &OsStr) -> PathBuf {
    Path::new(table).parent().map(Path::to_path_buf).unwrap_or_default()
}

/// Tells what comes of a table.
struct Teller<'a> {
    name: Name,
    console: &'a mut Console,
    progress: Progress,
    tally: Tally,
    /// The page, where one is wanted.
    page: Option<Page>,
    /// The number of the last line up to which all is told.
    last: u64,
    /// How many bytes of the table are read with it.
    read: u64,
}

impl Teller<'_> {
    /// Tells of all lines, in order; after a signal, of those that are judged. Answers how far it came, and why not
    /// further.
    fn tell_all(&mut self, mut results: Results) -> Result<(End, Option<io::Error>), Failure> {
        loop {
            let is_caught = signals::caught();
            let wait = if is_caught { Duration::ZERO } else { WAIT };
            match results.next(wait) {
                Next::Piece(piece) => self.tell(piece)?,
                Next::Waiting | Next::Lost if is_caught => return Ok((End::Interrupted(self.last), None)),
                Next::Waiting => {}
                // A worker may see a signal first.
                Next::Lost if signals::caught() => {}
                Next::Lost => return Err(Failure::new(Status::Defect, "an error in desk: a worker has ended")),
                Next::End => return Ok((End::Whole, None)),
                Next::Unreadable(error) => return Ok((End::Unreadable(self.last), Some(error))),
            }
            self.progress.show(self.read, self.tally.lines(), self.tally.failing);
        }
    }

    fn tell(&mut self, piece: Piece) -> Result<(), Failure> {
        for told in piece.told {
            if let Some(page) = &mut self.page {
                page.add(&told)?;
            }
            if told.outcome.why.is_empty() {
                continue;
            }
            let number = told.number;
            self.progress.make_room();
            self.console.answer(report(&self.name, told, self.console.json))?;
            // A page is wanted though nobody reads the answers.
            if self.console.is_gone() && self.page.is_none() {
                let before = number - 1;
                let message =
                    format!("standard output was closed after line {before}; the rest of the table is not judged");
                return Err(Failure::new(Status::BrokenOutput, message));
            }
        }
        self.tally.add_all(&piece.tally);
        (self.last, self.read) = (piece.last, piece.end);
        Ok(())
    }

    /// Tells of the table as a whole, and writes the page if all of it was judged.
    fn conclude(mut self, end: End, error: Option<io::Error>) -> Result<Status, Stop> {
        let failure = error.map(|error| unreadable(&self.name, &error));
        match failure {
            Some(failure) if self.tally.lines() == 0 => Err(failure.into()),
            failure => {
                let (output, failed) = self.write_page(end);
                let report = self.tally.report(self.console.style, &self.name, end, output.as_ref());
                let status = self.console.answer(report)?;
                failure.or(failed).map_or(Ok(status), |failure| Err(failure.into()))
            }
        }
    }

    /// Writes the page, and says whether it is there, and why it is not where it should be.
    fn write_page(&mut self, end: End) -> (Option<Output>, Option<Failure>) {
        let Some(page) = self.page.take() else {
            return (None, None);
        };
        let name = page.name().clone();
        let done = match end {
            End::Whole => page.finish(&self.name, &self.tally).map(|()| true),
            End::Interrupted(_) | End::Unreadable(_) => Ok(false),
        };
        let written = matches!(done, Ok(true));
        (Some(Output { name, written }), done.err())
    }
}

/// What is told of a line. Of the two forms, the one that is not asked for is left out, since there may be many lines.
fn report(name: &Name, told: Told, as_json: bool) -> Report {
    let status = told.outcome.status;
    if as_json {
        Report::new(status, String::new(), json(name, told))
    } else {
        Report::new(status, text(name, &told), Vec::new())
    }
}

fn text(name: &Name, told: &Told) -> String {
    let Outcome {
        column,
        why,
        terms,
        detail,
        ..
    } = &told.outcome;
    let mut text = format!("{name}:{}:{column}: {}\n", told.number, plain(&told.text));
    for line in why.lines().chain(terms.lines()).chain(detail.lines()) {
        text.extend(["  ", &plain(line), "\n"]);
    }
    text
}

fn json(name: &Name, told: Told) -> Vec<(&'static str, Json)> {
    let outcome = told.outcome;
    let mut json = vec![
        ("file", Json::from(name.as_str())),
        ("line", Json::from(told.number)),
        ("column", Json::from(outcome.column)),
        ("text", Json::from(told.text)),
        ("verdict", Json::from(outcome.sort.words())),
        ("why", Json::from(outcome.why)),
    ];
    let detail = outcome.terms + &outcome.detail;
    if outcome.explained.is_empty() && !detail.is_empty() {
        json.push(("detail", Json::from(detail.trim_end())));
    }
    json.extend(outcome.explained);
    json
}
