//! How lines of a table come out, and what is told of them.

use super::kept::{Seen, Trouble};
use super::line::{Field, Malformed};
use crate::cause;
use crate::input::Input;
use crate::json::Json;
use crate::refused;
use crate::report::refusal_status;
use base::Status;
use judge::Refusal;
use std::sync::Arc;

/// The sorts of lines that are counted apart.
#[derive(Clone, Copy, Debug, PartialEq, Eq)]
pub enum Sort {
    /// It holds.
    Holds,
    /// It holds, but only because nothing satisfies the statements, or nothing can belong to a term.
    Vacuous,
    /// It does not hold.
    DoesNotHold,
    /// A vocabulary or a script is refused, or its text has a fault.
    Refused,
    /// The line does not have the form.
    Malformed,
    /// A file cannot be read.
    NotReadable,
}

impl Sort {
    /// The word for it.
    pub fn words(self) -> &'static str {
        match self {
            Sort::Holds => "holds",
            Sort::Vacuous => "holds vacuously",
            Sort::DoesNotHold => "does not hold",
            Sort::Refused => "refused",
            Sort::Malformed => "malformed",
            Sort::NotReadable => "not readable",
        }
    }

    /// The same as the end of a sentence.
    pub fn clause(self) -> String {
        match self {
            Sort::Holds | Sort::Vacuous | Sort::DoesNotHold => self.words().to_string(),
            Sort::Refused | Sort::Malformed | Sort::NotReadable => format!("is {}", self.words()),
        }
    }
}

/// How a line came out.
#[derive(Clone, Debug)]
pub struct Outcome {
    /// Its sort.
    pub sort: Sort,
    /// The exit status that it asks for.
    pub status: Status,
    /// The column that the reason is about.
    pub column: usize,
    /// The reason, in one or more lines; empty where it holds.
    pub why: String,
    /// The terms, in lines, where more is said about the reason.
    pub terms: String,
    /// More about the reason, in lines.
    pub detail: String,
    /// The element that tells the terms apart, with the counter-model around it.
    pub explained: Vec<(&'static str, Json)>,
    /// A drawing of that, as SVG.
    pub drawing: Option<String>,
}

impl Outcome {
    /// One with its reason.
    pub fn new(sort: Sort, status: Status, why: impl Into<String>) -> Outcome {
        Outcome {
            sort,
            status,
            column: 1,
            why: why.into(),
            terms: String::new(),
            detail: String::new(),
            explained: Vec::new(),
            drawing: None,
        }
    }

    /// It holds.
    pub fn holds() -> Outcome {
        Outcome::new(Sort::Holds, Status::Holds, "")
    }

    /// It does not hold.
    pub fn fails(why: impl Into<String>) -> Outcome {
        Outcome::new(Sort::DoesNotHold, Status::DoesNotHold, why)
    }

    /// The refusal of an input.
    pub fn refused(refusal: Refusal, input: &Input) -> Outcome {
        let status = refusal_status(refusal);
        let sort = if status == Status::Refused {
            Sort::Refused
        } else {
            Sort::DoesNotHold
        };
        Outcome::new(sort, status, refused::words(input, refusal, None))
    }

    /// The refusal of a vocabulary, or of a number that a line asks about in it.
    pub fn of_vocabulary(refusal: Refusal, input: &Input) -> Outcome {
        let detail = cause::vocabulary_detail(&input.bytes, refusal);
        Outcome::unfit(refused::words(input, refusal, detail.as_deref()))
    }

    /// The refusal of what words ask about.
    pub fn unfit(why: String) -> Outcome {
        Outcome::new(Sort::Refused, Status::Refused, why)
    }

    /// What is wrong with the file of a field.
    pub fn trouble(trouble: Trouble, field: Field, text: &str) -> Outcome {
        let (sort, column) = match trouble.status {
            Status::Refused => (Sort::Refused, 1),
            _ => (Sort::NotReadable, field.column(text)),
        };
        Outcome {
            column,
            ..Outcome::new(sort, trouble.status, trouble.why.trim_end())
        }
    }

    /// A line that does not have the form.
    pub fn malformed(malformed: &Malformed, text: &str) -> Outcome {
        Outcome {
            column: malformed.column(text),
            ..Outcome::new(Sort::Malformed, Status::Refused, malformed.why.as_str())
        }
    }

    /// The same with more about the reason.
    pub fn with_detail(self, terms: String, detail: String) -> Outcome {
        Outcome { terms, detail, ..self }
    }

    /// The same with the reason alone.
    pub fn in_short(self) -> Outcome {
        Outcome {
            explained: Vec::new(),
            ..self.with_detail(String::new(), String::new())
        }
    }
}

/// The terms of a line, written out, as far as there are some.
pub type Terms = [Option<String>; 2];

/// What a page has of a line, beside how it came out.
#[derive(Debug, Default)]
pub struct Shown {
    /// The terms.
    pub terms: Terms,
    /// The files by which it was judged.
    pub files: Vec<Arc<Seen>>,
    /// More about the reason, in lines.
    pub detail: String,
}

/// A line that is to be told of.
#[derive(Debug)]
pub struct Told {
    /// Its number.
    pub number: u64,
    /// Its text, as far as it is repeated.
    pub text: String,
    /// How it came out.
    pub outcome: Outcome,
    /// What a page has of it, where one is made.
    pub shown: Option<Box<Shown>>,
}

impl Told {
    /// About how many bytes there are to tell.
    pub fn size(&self) -> usize {
        let of_page = self.shown.as_ref().map_or(0, |shown| {
            let terms: usize = shown.terms.iter().flatten().map(String::len).sum();
            terms + shown.detail.len()
        });
        let Outcome {
            why,
            terms,
            detail,
            drawing,
            ..
        } = &self.outcome;
        let drawing = drawing.as_ref().map_or(0, String::len);
        self.text.len() + why.len() + terms.len() + detail.len() + drawing + of_page
    }
}
