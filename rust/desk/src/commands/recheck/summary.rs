//! How many lines came out how.

use super::outcome::{Outcome, Sort};
use crate::display::grouped;
use crate::files::Name;
use crate::json::Json;
use crate::report::{Report, Style};
use base::Status;

/// The sorts, in the order in which they are counted.
const SORTS: [Sort; 6] = [
    Sort::Holds,
    Sort::Vacuous,
    Sort::DoesNotHold,
    Sort::Refused,
    Sort::Malformed,
    Sort::NotReadable,
];

/// How many lines came out how.
#[derive(Clone, Copy, Debug)]
pub struct Tally {
    counts: [u64; SORTS.len()],
    /// The greatest exit status that a line asks for.
    pub status: Status,
    /// How many lines ask for another status than 0.
    pub failing: u64,
}

/// How far the table was judged.
#[derive(Clone, Copy, Debug)]
pub enum End {
    /// To its end.
    Whole,
    /// To a line, after which a signal came.
    Interrupted(u64),
    /// To a line, after which the table cannot be read.
    Unreadable(u64),
}

/// The page that was to be written.
pub struct Output {
    /// Its name.
    pub name: Name,
    /// Whether it is.
    pub written: bool,
}

impl Tally {
    /// Of no line.
    pub fn new() -> Tally {
        Tally {
            counts: [0; SORTS.len()],
            status: Status::Holds,
            failing: 0,
        }
    }

    /// Counts a line.
    pub fn add(&mut self, outcome: &Outcome) {
        for (count, sort) in self.counts.iter_mut().zip(SORTS) {
            *count += u64::from(sort == outcome.sort);
        }
        self.status = self.status.max(outcome.status);
        self.failing += u64::from(outcome.status != Status::Holds);
    }

    /// Counts the lines of another.
    pub fn add_all(&mut self, other: &Tally) {
        for (count, more) in self.counts.iter_mut().zip(other.counts) {
            *count += more;
        }
        self.status = self.status.max(other.status);
        self.failing += other.failing;
    }

    /// How many came out how.
    pub fn counts(&self) -> impl Iterator<Item = (Sort, u64)> + '_ {
        SORTS.into_iter().zip(self.counts)
    }

    /// How many hold, and not vacuously alone.
    pub fn holding(&self) -> u64 {
        self.counts.first().copied().unwrap_or_default()
    }

    /// How many lines there are.
    pub fn lines(&self) -> u64 {
        self.counts.iter().sum()
    }

    /// The answer about the whole table.
    pub fn report(&self, style: Style, name: &Name, end: End, output: Option<&Output>) -> Report {
        let status = match end {
            End::Whole => self.status,
            End::Interrupted(_) => Status::Interrupted,
            End::Unreadable(_) => Status::NoInput,
        };
        let missing = output.filter(|output| !output.written);
        let missing = missing.map(|output| format!("; {} is not written", output.name));
        let missing = missing.unwrap_or_default();
        let text = format!("{name}: {}{}{missing}\n", end.words(), self.words(style));
        let [holding, vacuous, not_holding, refused, malformed, not_readable] = self.counts.map(Json::from);
        let mut json = vec![
            ("file", Json::from(name.as_str())),
            ("verdict", Json::from(end.verdict(self.status))),
        ];
        json.extend(end.line().map(|line| ("line", Json::from(line))));
        json.extend([
            ("lines", Json::from(self.lines())),
            ("holding", holding),
            ("vacuous", vacuous),
            ("not_holding", not_holding),
            ("refused", refused),
            ("malformed", malformed),
            ("not_readable", not_readable),
        ]);
        json.extend(output.map(|output| {
            let name = output.name.as_str();
            ("html", Json::from(output.written.then_some(name)))
        }));
        Report::new(status, text, json)
    }

    fn words(&self, style: Style) -> String {
        let lines = self.lines();
        if lines == 0 {
            return "has no line to recheck".to_string();
        }
        let colour = match self.status {
            Status::Holds => Status::Holds,
            _ => Status::DoesNotHold,
        };
        let [holding, vacuous, not_holding, refused, malformed, not_readable] = self.counts.map(grouped);
        let holding = style.paint(colour, &format!("{holding} of {} lines hold", grouped(lines)));
        format!(
            "{holding}; {vacuous} hold only vacuously, {not_holding} do not hold, {refused} refused, {malformed} malformed, \
             {not_readable} not readable"
        )
    }
}

impl End {
    /// The line after which nothing is judged.
    fn line(self) -> Option<u64> {
        match self {
            End::Whole => None,
            End::Interrupted(line) | End::Unreadable(line) => Some(line),
        }
    }

    fn words(self) -> String {
        match self {
            End::Whole => String::new(),
            End::Interrupted(line) => format!("interrupted after line {line}; "),
            End::Unreadable(line) => format!("not readable after line {line}; "),
        }
    }

    fn verdict(self, status: Status) -> &'static str {
        match (self, status) {
            (End::Whole, Status::Holds) => "holds",
            (End::Whole, _) => "does not hold",
            _ => "interrupted",
        }
    }
}
