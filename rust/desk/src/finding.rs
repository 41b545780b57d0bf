//! What is found in a file, as editors and code review show it.

use crate::files::Name;
use judge::Rule;
use std::ffi::OsStr;

/// On what ground something is found.
#[derive(Clone, Copy, Debug, PartialEq, Eq)]
pub enum Ground {
    /// A text has a fault.
    Fault,
    /// The library refuses what the file says.
    Refused(Rule),
    /// It is accepted, and its statements contradict each other.
    Contradiction,
}

impl Ground {
    /// What is found in vocabularies, in the order of the refusals.
    pub fn of_vocabularies() -> Vec<Ground> {
        let rules = (1..=u8::MAX).map(Rule::of).filter(|rule| rule.is_of_vocabulary());
        let refused = rules.map(Ground::Refused);
        [Ground::Fault]
            .into_iter()
            .chain(refused)
            .chain([Ground::Contradiction])
            .collect()
    }

    /// The name by which programs know it.
    pub fn id(self) -> String {
        match self {
            Ground::Fault => "judge-fault".to_string(),
            Ground::Refused(rule) => format!("judge-{}", rule.number()),
            Ground::Contradiction => "judge-contradiction".to_string(),
        }
    }

    /// How grave it is, in a word of compilers.
    pub fn level(self) -> &'static str {
        match self {
            Ground::Fault | Ground::Refused(_) => "error",
            Ground::Contradiction => "warning",
        }
    }

    /// What it is, as a sentence without its full stop.
    pub fn sentence(self) -> &'static str {
        match self {
            Ground::Fault => "the text does not keep the form that 'desk help texts' describes",
            Ground::Refused(rule) => rule.words(),
            Ground::Contradiction => {
                "the statements contradict each other: nothing satisfies them, so that all terms are equal"
            }
        }
    }
}

/// Where in a file something is found.
#[derive(Clone, Copy, Debug, PartialEq, Eq)]
pub enum Spot {
    /// A line and a column of a text, both from 1.
    Line(usize, usize),
    /// A record of a vocabulary's bytes.
    Record(u32),
    /// Nowhere in particular.
    Whole,
}

impl Spot {
    /// A line and a column where they are known.
    pub fn of_line(place: Option<(usize, usize)>) -> Spot {
        place.map_or(Spot::Whole, |(line, column)| Spot::Line(line, column))
    }
}

/// Something that is found in a file.
#[derive(Clone, Debug, PartialEq, Eq)]
pub struct Finding {
    /// On what ground.
    pub ground: Ground,
    /// Where.
    pub spot: Spot,
    /// In words, of one line.
    pub message: String,
}

impl Finding {
    /// The line that a compiler would write. Editors look for a line number, so that bytes have line 1.
    pub fn as_compilers_write(&self, path: &OsStr) -> String {
        let file = match path.to_str() {
            Some("-") => "<stdin>".to_string(),
            _ => Name::new(path).to_string(),
        };
        let (line, column) = match self.spot {
            Spot::Line(line, column) => (line, column),
            _ => (1, 1),
        };
        let (level, id) = (self.ground.level(), self.ground.id());
        format!("{file}:{line}:{column}: {level}: {} [{id}]\n", self.words())
    }

    /// The message, with the record where no line shows it.
    pub fn words(&self) -> String {
        match self.spot {
            Spot::Record(number) => format!("record {number}: {}", self.message),
            _ => self.message.clone(),
        }
    }
}
