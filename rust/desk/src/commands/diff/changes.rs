//! What changed between two vocabularies, for people and for programs.

use super::ranges;
use super::records::{header, matched, Matched, Side};
use super::renamed::Renamed;
use super::taxonomy::{Moved, Names};
use crate::display::{counted, grouped};
use crate::files::Name;
use crate::json::Json;
use crate::report::{Report, Style};
use base::Status;

/// What changed.
pub struct Changes<'a> {
    old: &'a Side,
    new: &'a Side,
    matched: Matched,
    /// The matched records that are on the chain in one of the two alone.
    linked: Vec<(u16, u16)>,
    /// The matched records that have other numbers.
    moved: Vec<(u16, u16)>,
    renamed: Vec<Renamed>,
    /// The names of each, as they are classified; nothing where one of the two cannot be.
    names: Option<[Names<'a>; 2]>,
}

/// A line for a header's field that changed.
const FIELDS: [(&str, &str); 2] = [("roles", "the number of roles"), ("edition", "the edition")];

impl<'a> Changes<'a> {
    /// Compares two vocabularies.
    pub fn find(old: &'a Side, new: &'a Side, renamed: Vec<Renamed>) -> Changes<'a> {
        let matched = matched(old, new);
        let pairs = matched.pairs.iter().copied();
        let linked = pairs.clone().filter(|(a, b)| old.is_chained(*a) != new.is_chained(*b));
        Changes {
            linked: linked.collect(),
            moved: pairs.filter(|(a, b)| a != b).collect(),
            names: Names::ask(old).zip(Names::ask(new)).map(<[Names; 2]>::from),
            matched,
            renamed,
            old,
            new,
        }
    }

    /// The fields of the header, old and new.
    fn fields(&self) -> impl Iterator<Item = ((&'static str, &'static str), u16, u16)> + '_ {
        let [old, new] = [self.old, self.new].map(|side| header(side.written.vocabulary()));
        let fields = FIELDS.into_iter().zip(old).zip(new);
        fields.map(|((field, old), new)| (field, old, new))
    }

    /// Whether nothing changed.
    fn is_empty(&self) -> bool {
        let Matched { removed, added, .. } = &self.matched;
        let lists = [
            removed.is_empty(),
            added.is_empty(),
            self.linked.is_empty(),
            self.moved.is_empty(),
        ];
        let is_same = self.fields().all(|(_, old, new)| old == new);
        is_same && self.renamed.is_empty() && lists.into_iter().all(|empty| empty)
    }

    /// The answer.
    pub fn report(&self, style: Style, files: [&Name; 2]) -> Report {
        let status = match self.is_empty() {
            true => Status::Holds,
            false => Status::DoesNotHold,
        };
        let text = self.text(style, files, status);
        Report::new(status, text, self.json(files, status))
    }

    fn text(&self, style: Style, [old, new]: [&Name; 2], status: Status) -> String {
        if status == Status::Holds {
            return format!("{old} and {new}: {}\n", style.paint(status, "no change"));
        }
        let Matched { removed, added, .. } = &self.matched;
        let mut text = format!(
            "{old} and {new}: {}; {} removed, {} added, {} moved\n",
            style.paint(status, "changed"),
            counted(removed.len() as u64, "record"),
            grouped(added.len() as u64),
            grouped(self.moved.len() as u64),
        );
        for ((_, field), old, new) in self.fields().filter(|(_, old, new)| old != new) {
            text.push_str(&format!("  {field} was {old}, is {new}\n"));
        }
        for number in removed {
            text.push_str(&marked(
                style,
                Status::Refused,
                '-',
                self.old,
                *number,
                self.still(*number),
            ));
        }
        for number in added {
            text.push_str(&marked(
                style,
                Status::Holds,
                '+',
                self.new,
                *number,
                self.new.same(*number),
            ));
        }
        text.push_str(&self.rest());
        text
    }

    /// What changed beside records that came and went.
    fn rest(&self) -> String {
        let mut text = String::new();
        for (old, new) in &self.linked {
            let way = match self.new.is_chained(*new) {
                true => "put on",
                false => "taken off",
            };
            let was = match old == new {
                true => String::new(),
                false => format!(", was record {old}"),
            };
            text.push_str(&format!("  {way} the chain: {}{was}\n", self.new.line(*new)));
        }
        if !self.moved.is_empty() {
            text.push_str(&format!("  moved: {}\n", ranges::words(&self.moved)));
        }
        text.extend(self.renamed.iter().map(|renamed| format!("  {}\n", renamed.words())));
        text.push_str(&self.contradiction());
        for Moved {
            records: [_, new],
            words,
        } in self.standings()
        {
            let [was, is] = words;
            let name = self.new.written.called(new);
            text.push_str(&format!("  {name}: {is}; was {was}\n"));
        }
        text
    }

    /// A line where statements contradict each other in one of the two alone.
    fn contradiction(&self) -> String {
        let Some(names) = &self.names else { return String::new() };
        let words = match names.each_ref().map(Names::is_contradictory) {
            [false, true] => "the statements contradict each other in NEW, and did not in OLD",
            [true, false] => "the statements contradicted each other in OLD, and do not in NEW",
            _ => return String::new(),
        };
        format!("  {words}\n")
    }

    /// The names that stand otherwise.
    fn standings(&self) -> Vec<Moved> {
        let names = self.names.as_ref();
        names.map(|[old, new]| old.moved(new)).unwrap_or_default()
    }

    /// The record of the new vocabulary that still says what one of the old one says.
    fn still(&self, number: u16) -> Option<u16> {
        self.old.shape(number).and_then(|shape| self.new.first(shape))
    }

    fn json(&self, [old, new]: [&Name; 2], status: Status) -> Vec<(&'static str, Json)> {
        let verdict = match status {
            Status::Holds => "unchanged",
            _ => "changed",
        };
        let pair = |(old, new): &(u16, u16)| Json::object([("old", Json::from(*old)), ("new", Json::from(*new))]);
        let mut json = vec![
            ("old", Json::from(old.as_str())),
            ("new", Json::from(new.as_str())),
            ("verdict", Json::from(verdict)),
        ];
        json.extend(self.fields().map(|((name, _), old, new)| (name, pair(&(old, new)))));
        let removed = self
            .matched
            .removed
            .iter()
            .map(|number| listed(self.old, *number, self.still(*number)));
        let added = self
            .matched
            .added
            .iter()
            .map(|number| listed(self.new, *number, self.new.same(*number)));
        json.extend([
            ("removed", Json::list(removed)),
            ("added", Json::list(added)),
            (
                "linked",
                Json::list(self.linked.iter().map(|pair| self.linked_json(pair))),
            ),
            ("moved", Json::list(self.moved.iter().map(pair))),
            ("renamed", Json::list(self.renamed.iter().map(Renamed::json))),
            ("standings", self.standings_json()),
        ]);
        json
    }

    fn linked_json(&self, (old, new): &(u16, u16)) -> Json {
        Json::object([
            ("old", Json::from(*old)),
            ("new", Json::from(*new)),
            ("chained", Json::from(self.new.is_chained(*new))),
        ])
    }

    /// Null where one of the two cannot be classified.
    fn standings_json(&self) -> Json {
        if self.names.is_none() {
            return Json::Null;
        }
        let standings = self.standings().into_iter().map(|moved| {
            let [old, new] = moved.records;
            let [was, is] = moved.words;
            let words = |number: u16, words: String| {
                Json::object([("record", Json::from(number)), ("stands", Json::from(words))])
            };
            Json::object([("old", words(old, was)), ("new", words(new, is))])
        });
        Json::list(standings)
    }
}

/// A record that came or went, as people read it, and the record that says the same.
fn marked(style: Style, status: Status, mark: char, side: &Side, number: u16, same: Option<u16>) -> String {
    let line = style.paint(status, &format!("{mark} {}", side.line(number)));
    match (same, mark) {
        (None, _) => format!("{line}\n"),
        (Some(same), '-') => format!("{line}\n    record {same} of NEW says the same\n"),
        (Some(same), _) => format!("{line}\n    record {same} says the same\n"),
    }
}

/// The same as programs read it.
fn listed(side: &Side, number: u16, same: Option<u16>) -> Json {
    let is_term = side.written.vocabulary().get(usize::from(number)).is_term();
    let chained = (!is_term).then(|| side.is_chained(number));
    let fields = side.written.term_fields(number).into_iter();
    Json::object(fields.chain([("chained", Json::from(chained)), ("same", Json::from(same))]))
}
