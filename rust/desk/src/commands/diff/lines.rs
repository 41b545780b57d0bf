//! The lines of a filed table, each judged by the old vocabulary and by the new one in its place.

use super::super::recheck::check::{claimed, judge, script_of, Manner};
use super::super::recheck::kept::{Files, Known};
use super::super::recheck::line::{repeated, Claim, Field, Row, Text};
use super::super::recheck::outcome::{Outcome, Sort};
use super::super::recheck::table::Line;
use super::records::{Shapes, Side};
use super::terms::{self, Term};
use crate::files::FileId;
use base::Status;

/// The two vocabularies, and where the table's files are.
pub struct Lines<'a> {
    /// What their records say.
    pub sides: [&'a Side; 2],
    /// What records of both say, each once.
    pub shapes: Shapes,
    /// The vocabularies.
    pub known: [Known; 2],
    /// Which files they are.
    pub ids: [Option<FileId>; 2],
    /// Where files are looked for.
    pub files: Files,
    /// The file that was named last, and whether it is one of the two.
    pub last: Option<(String, bool)>,
}

/// A line that is about one of the vocabularies, or has no form.
pub struct Told {
    /// Its number.
    pub number: u64,
    /// The column that the reason is about.
    pub column: usize,
    /// Its text, as far as it is repeated.
    pub text: String,
    /// How it came out by each.
    pub sorts: [Sort; 2],
    /// Why, by each; empty where it holds.
    pub why: [String; 2],
    /// The terms that are others in the new vocabulary.
    pub terms: Vec<Term>,
    /// The records in the new vocabulary of the terms that it named in the old one, and how it comes out with them.
    pub meant: Option<([u32; 2], Sort)>,
    /// The exit status that it asks for.
    pub status: Status,
}

impl Told {
    /// Whether it cannot be judged: it has no form, or its script cannot be read.
    pub fn is_unfit(&self) -> bool {
        let [_, new] = self.sorts;
        matches!(new, Sort::Malformed | Sort::NotReadable)
    }

    /// Whether its verdict changes.
    pub fn changes(&self) -> bool {
        let [old, new] = self.sorts;
        old != new
    }
}

impl Lines<'_> {
    /// How a line comes out; nothing if it is about another vocabulary, or says nothing.
    pub fn check(&mut self, line: &Line) -> Option<Told> {
        let text = Text::of(line);
        if !text.says() {
            return None;
        }
        let row = match text.read() {
            Ok(row) => row,
            Err(malformed) => {
                let outcome = Outcome::malformed(&malformed, &text.text);
                return Some(told(line, &text.text, [outcome.clone(), outcome], Vec::new()));
            }
        };
        if !self.is_named(row.vocabulary) {
            return None;
        }
        let outcomes = self.judge(&row, &text.text);
        let (terms, meant) = terms::changed(&row, &self.known, self.sides, &mut self.shapes);
        Some(Told {
            meant: meant
                .filter(|_| !terms.is_empty())
                .and_then(|pair| self.meant(&row, pair)),
            ..told(line, &text.text, outcomes, terms)
        })
    }

    /// How a line comes out with the terms that it named in the old vocabulary, by their records in the new one. A script
    /// has numbers of its own.
    fn meant(&mut self, row: &Row, pair: [u32; 2]) -> Option<([u32; 2], Sort)> {
        if matches!(row.claim, Claim::Proved(_)) {
            return None;
        }
        let [_, known] = &mut self.known;
        let outcome = claimed(known, row.claim, pair, None, Manner::default());
        Some((pair, outcome.sort))
    }

    /// Whether a field names one of the two vocabularies.
    fn is_named(&mut self, field: Field) -> bool {
        if let Some((name, is_named)) = &self.last {
            if name == field.text {
                return *is_named;
            }
        }
        let about = std::fs::metadata(self.files.path(field.text)).ok();
        let id = about.as_ref().and_then(FileId::of);
        let is_named = id.is_some() && self.ids.contains(&id);
        self.last = Some((field.text.to_string(), is_named));
        is_named
    }

    fn judge(&mut self, row: &Row, text: &str) -> [Outcome; 2] {
        let script = match script_of(&self.files, row, text, &mut Vec::new()) {
            Ok(script) => script,
            Err(outcome) => return [*outcome.clone(), *outcome],
        };
        let [old, new] = &mut self.known;
        [old, new].map(|known| judge(known, row, text, script.as_ref(), Manner::default()).0)
    }
}

fn told(line: &Line, text: &str, outcomes: [Outcome; 2], terms: Vec<Term>) -> Told {
    let sorts = outcomes.each_ref().map(|outcome| outcome.sort);
    let [old, new] = sorts;
    // What cannot be judged by either is an error of the line; else it is asked what changes.
    let status = match new {
        Sort::Malformed | Sort::NotReadable => outcomes.each_ref().map(|outcome| outcome.status).into_iter().max(),
        _ if old != new || !terms.is_empty() => Some(Status::DoesNotHold),
        _ => None,
    };
    // It is 1 where nothing is wrong with a field.
    let column = outcomes.iter().map(|outcome| outcome.column).max();
    Told {
        number: line.number,
        column: column.unwrap_or(1),
        text: repeated(text),
        sorts,
        why: outcomes.map(|outcome| outcome.why),
        terms,
        meant: None,
        status: status.unwrap_or(Status::Holds),
    }
}
