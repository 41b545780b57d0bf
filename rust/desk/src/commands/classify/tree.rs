//! A taxonomy as a tree, for people, and as a list of names, for programs.

use crate::commands::contradiction;
use crate::display::counted;
use crate::files::Name;
use crate::json::Json;
use crate::report::{Report, Style};
use crate::taxonomy::{Class, Taxonomy};
use crate::text::vocabulary::Written;
use base::Status;

/// By how much a line of the tree is set in from the one above it.
const STEP: usize = 2;

/// The report on a vocabulary.
pub fn report(style: Style, name: &Name, written: &Written, taxonomy: &Taxonomy) -> Report {
    let tree = Tree { written, taxonomy };
    let names = taxonomy.names();
    let text = format!(
        "{name}: {}, {}; {}, {}\n{}",
        style.paint(Status::Holds, "classified"),
        counted(names.len() as u64, "name"),
        counted(taxonomy.answer.survivors.into(), "survivor"),
        counted(taxonomy.answer.rounds.into(), "round"),
        tree.text(style),
    );
    let json = vec![
        ("file", Json::from(name.as_str())),
        ("verdict", Json::from("classified")),
        ("survivors", Json::from(taxonomy.answer.survivors)),
        ("rounds", Json::from(taxonomy.answer.rounds)),
        ("contradictory", Json::from(taxonomy.is_contradictory())),
        (
            "names",
            Json::list(names.into_iter().map(|(name, class)| tree.name_json(name, class))),
        ),
    ];
    Report::new(Status::Holds, text, json)
}

/// A taxonomy with what its names are called.
struct Tree<'a> {
    written: &'a Written,
    taxonomy: &'a Taxonomy,
}

impl Tree<'_> {
    /// The tree from owl:Thing down, and the names that are in none.
    fn text(&self, style: Style) -> String {
        let mut text = if self.taxonomy.is_contradictory() {
            contradiction(style)
        } else {
            let full = self.taxonomy.classes.iter().find(|class| class.full);
            let full = full.map_or_else(String::new, |class| format!(" = {}", self.called(class)));
            format!("{:STEP$}owl:Thing{full}\n", "")
        };
        self.add_below(None, 2 * STEP, &mut text);
        if let Some(empty) = self.taxonomy.classes.iter().find(|class| class.empty) {
            let word = style.paint(Status::DoesNotHold, "empty");
            text.push_str(&format!("{:STEP$}{word}: {}\n", "", self.called(empty)));
        }
        text
    }

    /// Adds what is below a class, or below owl:Thing. What is below several classes is added below each, with all that is
    /// below it, as in the tree of an editor.
    fn add_below(&self, above: Option<usize>, indent: usize, text: &mut String) {
        for (number, class) in self.taxonomy.below(above) {
            let elsewhere = self.elsewhere(number, above);
            text.push_str(&format!("{:indent$}{}{elsewhere}\n", "", self.called(class)));
            self.add_below(Some(number), indent + STEP, text);
        }
    }

    /// The names of a class.
    fn called(&self, class: &Class) -> String {
        let names = class.names.iter().map(|name| self.written.called(*name));
        names.collect::<Vec<String>>().join(" = ")
    }

    /// The other classes that a class is below, each by its first name.
    fn elsewhere(&self, number: usize, above: Option<usize>) -> String {
        let others = self.taxonomy.above(number).into_iter();
        let others = others.filter(|other| Some(*other) != above);
        let first = |other: usize| self.taxonomy.classes.get(other)?.names.first().copied();
        let others: Vec<String> = others.filter_map(first).map(|name| self.written.both(name)).collect();
        if others.is_empty() {
            return String::new();
        }
        format!(", also below {}", others.join(", "))
    }

    /// A name, for programs.
    fn name_json(&self, name: u16, class: &Class) -> Json {
        let equal = class.names.iter().copied().filter(|other| *other != name);
        let mut fields = self.written.term_fields(name);
        fields.extend([
            ("equal", Json::list(equal)),
            ("broader", Json::list(self.taxonomy.broader_names(class))),
            ("empty", Json::from(class.empty)),
            ("full", Json::from(class.full)),
        ]);
        Json::object(fields)
    }
}
