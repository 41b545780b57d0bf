//! A filed table, as it is read when the new vocabulary takes the place of the old one.

use super::super::recheck::directory;
use super::super::recheck::kept::Files;
use super::super::recheck::outcome::Sort;
use super::super::recheck::table::Table;
use super::lines::{Lines, Told};
use super::records::{Shapes, Side};
use super::terms::Term;
use crate::console::Console;
use crate::display::{counted, grouped, plain};
use crate::files::{self, unreadable, Access, Name, Opened};
use crate::input::Input;
use crate::json::Json;
use crate::report::{Report, Style};
use base::{Failure, Status};
use std::ffi::OsStr;

/// How many lines came out how.
#[derive(Default)]
struct Tally {
    /// Those that name one of the vocabularies.
    named: u64,
    /// Those of them whose verdict changes.
    changed: u64,
    /// Those of them in which a number or a name stands for another term.
    renumbered: u64,
    /// Those that cannot be judged: they have no form, or their script cannot be read.
    unfit: u64,
}

/// Tells of the lines of a table that change.
pub fn tell(
    path: &OsStr,
    inputs: [Input; 2],
    (sides, shapes): ([&Side; 2], Shapes),
    console: &mut Console,
) -> Result<Status, Failure> {
    let opened = files::open(path, Access::Any)?;
    let name = opened.name.clone();
    let files = Files {
        directory: directory(path),
        notes: false,
        words: None,
    };
    let ids = inputs.each_ref().map(|input| input.id);
    let lines = Lines {
        known: inputs.map(|input| files.known(input)),
        sides,
        shapes,
        ids,
        files,
        last: None,
    };
    Teller {
        name,
        lines,
        console,
        tally: Tally::default(),
        status: Status::Holds,
    }
    .tell_all(opened)
}

struct Teller<'a> {
    name: Name,
    lines: Lines<'a>,
    console: &'a mut Console,
    tally: Tally,
    /// The greatest that a line asks for.
    status: Status,
}

impl Teller<'_> {
    fn tell_all(mut self, opened: Opened) -> Result<Status, Failure> {
        let mut table = Table::new(opened);
        loop {
            while let Some(line) = table.next_line() {
                let told = self.lines.check(&line);
                self.tell(told)?;
            }
            match table.read_on() {
                Ok(true) => {}
                Ok(false) => break,
                Err(error) => return Err(unreadable(&self.name, &error)),
            }
        }
        if let Some(line) = table.last_line() {
            let told = self.lines.check(&line);
            self.tell(told)?;
        }
        let report = summary(&self.name, &self.tally, self.status, self.console.style);
        self.console.answer(report)
    }

    fn tell(&mut self, told: Option<Told>) -> Result<(), Failure> {
        let Some(told) = told else { return Ok(()) };
        self.tally.unfit += u64::from(told.is_unfit());
        self.tally.named += u64::from(told.sorts != [Sort::Malformed; 2]);
        self.tally.changed += u64::from(told.changes());
        self.tally.renumbered += u64::from(!told.terms.is_empty());
        self.status = self.status.max(told.status);
        if told.status != Status::Holds {
            self.console.answer(report(&self.name, told))?;
        }
        Ok(())
    }
}

/// What is told of a line.
fn report(name: &Name, told: Told) -> Report {
    let mut text = format!("{name}:{}:{}: {}\n", told.number, told.column, plain(&told.text));
    for line in words(&told).lines() {
        text.push_str(&format!("  {}\n", plain(line)));
    }
    let by = |sort: Sort, why: &str| {
        Json::object([
            ("verdict", Json::from(sort.words())),
            ("why", Json::from(Some(why).filter(|why| !why.is_empty()))),
        ])
    };
    let ([old, new], [old_why, new_why]) = (told.sorts, &told.why);
    let verdict = match (told.is_unfit(), told.changes()) {
        (true, _) => new.words(),
        (_, true) => "changed",
        (_, false) => "unchanged",
    };
    let meant = told.meant.map(|([a, b], sort)| {
        let verdict = Json::from(sort.words());
        Json::object([("a", Json::from(a)), ("b", Json::from(b)), ("verdict", verdict)])
    });
    let json = vec![
        ("file", Json::from(name.as_str())),
        ("line", Json::from(told.number)),
        ("column", Json::from(told.column)),
        ("text", Json::from(told.text.as_str())),
        ("verdict", Json::from(verdict)),
        ("old", by(old, old_why)),
        ("new", by(new, new_why)),
        ("terms", Json::list(told.terms.iter().map(Term::json))),
        ("meant", Json::from(meant)),
    ];
    Report::new(told.status, text, json)
}

/// How a line came out by both vocabularies, and which numbers name other terms.
fn words(told: &Told) -> String {
    let ([old, new], [old_why, new_why]) = (told.sorts, &told.why);
    let mut words = match told.changes() {
        false if told.is_unfit() => return new_why.clone(),
        true => format!("by OLD {}\nby NEW {}\n", verdict(old, old_why), verdict(new, new_why)),
        false => format!("{} by both\n", new.words()),
    };
    words.extend(told.terms.iter().map(|term| format!("{}\n", term.words())));
    if let Some(([a, b], sort)) = told.meant {
        words.push_str(&format!("as {a} {b}, the terms that it named, it {}\n", sort.clause()));
    }
    words
}

/// A verdict with its reason, which may begin with the same word.
fn verdict(sort: Sort, why: &str) -> String {
    match (sort.words(), why.trim_end()) {
        (word, "") => word.to_string(),
        (word, why) if why.starts_with(word) => why.to_string(),
        (word, why) => format!("{word}: {why}"),
    }
}

/// The answer about the whole table.
fn summary(name: &Name, tally: &Tally, status: Status, style: Style) -> Report {
    let Tally {
        named,
        changed,
        renumbered,
        unfit,
    } = tally;
    let lines = counted(*named, "line");
    let [changes, numbers, unjudged] = [changed, renumbered, unfit].map(|count| grouped(*count));
    let changes = style.paint(
        status.min(Status::DoesNotHold),
        &format!("the verdict changes in {changes}"),
    );
    let text = format!(
        "{name}: {lines} about OLD or NEW; {changes}, A or B is another term in {numbers}; {unjudged} cannot be judged\n"
    );
    let verdict = match changed + renumbered {
        0 => "unchanged",
        _ => "changed",
    };
    let json = vec![
        ("file", Json::from(name.as_str())),
        ("verdict", Json::from(verdict)),
        ("lines", Json::from(*named)),
        ("changed", Json::from(*changed)),
        ("renumbered", Json::from(*renumbered)),
        ("unfit", Json::from(*unfit)),
    ];
    Report::new(status, text, json)
}
