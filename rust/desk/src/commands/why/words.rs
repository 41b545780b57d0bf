//! Justifications, for people and for programs.

use crate::commands::pair::{Answered, Emptiness};
use crate::display::{counted, grouped};
use crate::input::Input;
use crate::json::Json;
use crate::justification::Others;
use crate::report::{Report, Style};
use crate::text::vocabulary::Written;
use base::vocabulary::Saying;
use base::Status;

/// A set of statements that are enough, and of which none can be left out.
pub struct Justification {
    /// The statements.
    pub statements: Vec<u16>,
    /// Whether nothing can belong to the terms, by these statements.
    pub empty: Emptiness,
}

/// Why A is equal to B, or lies within it.
pub struct Reasons {
    /// Whether it is that A lies within B.
    pub within: bool,
    /// How many statements are on the chain.
    pub statements: usize,
    /// The justifications that were found.
    pub sets: Vec<Justification>,
    /// What is known of others.
    pub others: Others,
    /// Whether a signal ended the search.
    pub interrupted: bool,
    /// Whether several were looked for.
    pub wide: bool,
    /// How many times the library was asked.
    pub asked: u64,
}

impl Reasons {
    /// The report on an input, from that of the answer by all statements; `text` has the lines, if anything has.
    pub fn report(&self, answer: Report, style: Style, [input, text]: [&Input; 2], answered: &Answered) -> Report {
        let written = &answered.written;
        let listed = Listed { text, written };
        let [a, b] = answered.pair.map(|number| written.term(number as u16));
        let (by, asked) = (self.by(), counted(self.asked, "time"));
        let claim = match self.within {
            true => style.paint(Status::Holds, "A lies within B"),
            false => style.paint(Status::Holds, "A is equal to B"),
        };
        let mut text = format!("{}: {claim} {by}; asked {asked}\n  A: {a}\n  B: {b}\n", input.name);
        text.push_str(&answered.empty.text(answered.answer.verdict));
        for (number, set) in (1..).zip(&self.sets) {
            if self.sets.len() > 1 {
                text.push_str(&format!("set {number}: "));
            }
            text.push_str(&listed.text(set));
        }
        text.push_str(&self.rest());
        let mut json = answer.json;
        json.extend(self.json(&listed));
        self.end(Report { text, json, ..answer })
    }

    /// The report of a search that may have been interrupted.
    fn end(&self, mut report: Report) -> Report {
        if self.interrupted {
            report.status = Status::Interrupted;
            let verdict = report.json.iter_mut().find(|(name, _)| *name == "verdict");
            verdict
                .into_iter()
                .for_each(|(_, verdict)| *verdict = Json::from("interrupted"));
        }
        report
    }

    /// By how many statements.
    fn by(&self) -> String {
        let all = counted(self.statements as u64, "statement");
        match self.sets.as_slice() {
            [set] if set.statements.is_empty() => format!("by the terms alone, without any of {all}"),
            [set] => format!("by {} of {all}", grouped(set.statements.len() as u64)),
            sets => format!("by each of {}, out of {all}", counted(sets.len() as u64, "set")),
        }
    }

    /// Whether there are others.
    fn rest(&self) -> String {
        let may_be = match (self.interrupted, self.wide) {
            (true, _) => "interrupted; there may be other such sets",
            (false, true) => "there may be other such sets: the search for them takes too long",
            (false, false) => "there may be other such sets ('--all N' looks for them)",
        };
        let words = match self.others {
            Others::None if self.sets.iter().all(|set| set.statements.is_empty()) => return String::new(),
            Others::None => "there is no other such set",
            Others::Some => "there are other such sets",
            Others::Unknown => may_be,
        };
        format!("{words}\n")
    }

    fn json(&self, listed: &Listed) -> [(&'static str, Json); 5] {
        let complete = match self.others {
            Others::None => Some(true),
            Others::Some => Some(false),
            Others::Unknown => None,
        };
        [
            ("statements", Json::from(self.statements)),
            ("sets", Json::list(self.sets.iter().map(|set| listed.json(set)))),
            ("minimal", Json::from(true)),
            ("complete", Json::from(complete)),
            ("asked", Json::from(self.asked)),
        ]
    }
}

/// How statements are listed.
struct Listed<'a> {
    /// What has the lines of the statements, if anything has.
    text: &'a Input,
    written: &'a Written,
}

impl Listed<'_> {
    fn text(&self, set: &Justification) -> String {
        let mut text = match set.statements.len() {
            0 => String::new(),
            1 => "this statement is enough, and cannot be left out:\n".to_string(),
            _ => "these statements are enough, and none of them can be left out:\n".to_string(),
        };
        text.extend(set.statements.iter().map(|number| self.line(*number)));
        text.push_str(&emptiness(set));
        text
    }

    /// The line of a statement; and its terms, where they are called something or the line has but their numbers.
    fn line(&self, number: u16) -> String {
        let place = self.text.line_of(number.into());
        let place = place.map_or_else(String::new, |place| format!("{}: ", self.text.at(Some(place))));
        let mut text = format!("  {place}{number}: {}\n", self.written.called(number));
        if let Some(Saying::Within(a, b)) = self.written.vocabulary().get(number.into()).saying() {
            let says_more =
                |term: &u16| self.written.words(*term).is_some() || !self.written.is_written_out((*term).into());
            if [a, b].iter().any(says_more) {
                let [a, b] = [a, b].map(|term| self.written.called(term));
                text.push_str(&format!("    {a} lies within {b}\n"));
            }
        }
        text
    }

    fn json(&self, set: &Justification) -> Json {
        let statement = |number: &u16| {
            let place = self.text.line_of((*number).into());
            let mut fields = self.written.term_fields(*number).to_vec();
            fields.push(("line", Json::from(place.map(|(line, _)| line))));
            fields.push(("column", Json::from(place.map(|(_, column)| column))));
            Json::Object(fields)
        };
        let statements = ("statements", Json::list(set.statements.iter().map(statement)));
        Json::object([statements].into_iter().chain(set.empty.json()))
    }
}

/// A line that says what is empty by these statements; none where nothing is.
fn emptiness(set: &Justification) -> String {
    let (it, they) = match set.statements.len() {
        0 => ("by the terms alone ", ""),
        1 => ("by it ", "nothing satisfies it"),
        _ => ("by them ", "they contradict each other"),
    };
    match (set.empty.contradictory, set.empty.terms) {
        (true, _) => format!("  {they}\n"),
        (false, [Some(true), Some(true)]) => format!("  {it}nothing can belong to either term\n"),
        (false, [Some(true), _]) => format!("  {it}nothing can belong to A\n"),
        _ => String::new(),
    }
}
