//! What a command has to say, for people and for programs.

use crate::finding::Finding;
use crate::json::Json;
use base::{Failure, Status};
use judge::Refusal;

/// An answer, for people and for programs.
pub struct Report {
    /// Its exit status.
    pub status: Status,
    /// What people read, on standard output.
    pub text: String,
    /// What people read beside it, on standard error.
    pub aside: String,
    /// What programs read.
    pub json: Vec<(&'static str, Json)>,
    /// What editors show of it, where an input is faulty, refused or contradicts itself.
    pub findings: Vec<Finding>,
}

impl Report {
    /// An answer in words.
    pub fn new(status: Status, text: String, json: Vec<(&'static str, Json)>) -> Report {
        Report {
            status,
            text,
            aside: String::new(),
            json,
            findings: Vec::new(),
        }
    }
}

/// Why a command stops before its answer.
pub enum Stop {
    /// There is none.
    Failure(Failure),
    /// Another takes its place: an input has faults or is refused.
    Answer(Box<Report>),
}

impl From<Failure> for Stop {
    fn from(failure: Failure) -> Stop {
        Stop::Failure(failure)
    }
}

impl From<Report> for Stop {
    fn from(report: Report) -> Stop {
        Stop::Answer(Box::new(report))
    }
}

/// Colours, where the output is a terminal.
#[derive(Clone, Copy)]
pub struct Style {
    /// Whether to colour.
    pub colour: bool,
}

impl Style {
    /// A word in the colour of a status.
    pub fn paint(self, status: Status, word: &str) -> String {
        let code = match status {
            Status::Holds => 32,
            Status::DoesNotHold => 33,
            _ => 31,
        };
        if self.colour {
            format!("\x1b[{code}m{word}\x1b[0m")
        } else {
            word.to_string()
        }
    }
}

/// The status of a refusal: a script that keeps the form and is refused by its chain does not hold; other input is unfit.
pub fn refusal_status(refusal: Refusal) -> Status {
    if refusal.rule.is_of_chain() {
        Status::DoesNotHold
    } else {
        Status::Refused
    }
}

/// A refusal, as programs read it.
pub fn refusal_json(refusal: Refusal) -> Json {
    Json::object([
        ("number", Json::from(u64::from(refusal.rule.number()))),
        ("place", Json::from(u64::from(refusal.place))),
        ("words", Json::from(refusal.rule.words())),
        ("condition", Json::from(refusal.rule.condition())),
    ])
}
