//! Terms that words name, on the command line and in the fields of a table.

use super::addition::comment;
use super::cursor::{Cursor, Fault};
use super::names::{Names, Sort};
use super::said::{Said, Term, Unsaid};
use super::terms::{operand, said_by, NO_TERM};
use crate::display::{did_you_mean, plain};
use base::arguments::digits;
use base::vocabulary::Vocabulary;

/// What a word may be, for people who wrote something else.
pub const FORMS: &str = "a record's number, a name or the text of a term";

/// Why a word names no term.
#[derive(Debug, PartialEq, Eq)]
pub enum Wrong {
    /// It has nothing of a term; with what may be meant, to go behind a message.
    NoTerm(String),
    /// It cannot be read as a term's text. There is at least one fault.
    Faults(Vec<Fault>),
}

/// Reads words that name terms of a vocabulary.
pub struct Words<'n> {
    said: Said,
    names: &'n Names,
}

impl Words<'_> {
    /// A reader of words, of which each names a record that is there.
    pub fn of_records<'n>(vocabulary: &Vocabulary, names: &'n Names) -> Words<'n> {
        let said = said_by(vocabulary, Unsaid::NotFound);
        Words { said, names }
    }

    /// A reader of words that may name terms of which there is no record, made of names that are there.
    pub fn of_names<'n>(vocabulary: &Vocabulary, names: &'n Names) -> Words<'n> {
        let said = said_by(vocabulary, Unsaid::MadeOfNames);
        Words { said, names }
    }

    /// The record of the term that a word names: a number, what people call a name, or a text.
    pub fn term(&mut self, word: &str) -> Result<u32, Wrong> {
        if let Some(number) = digits(word) {
            return Ok(number);
        }
        let label = self.names.text_of(Sort::Name, word);
        self.term_of_text(label.as_deref().unwrap_or(word))
    }

    /// What people call a name that a word may mean, to go behind a message.
    fn meant(&self, word: &str) -> String {
        let word = word.trim();
        if self.names.is_empty() && word.starts_with(char::is_alphabetic) && !word.contains('(') {
            return "; no names are given for this vocabulary".to_string();
        }
        plain(&did_you_mean(word, self.names.meant(Sort::Name, word)))
    }

    /// The record of the term of a text.
    fn term_of_text(&mut self, text: &str) -> Result<u32, Wrong> {
        let mut line = Cursor::new(1, text).with_names(self.names);
        let read = operand(&mut line, &mut self.said, 1).and_then(|record| line.end().map(|()| record));
        let record = read.unwrap_or_else(|fault| {
            line.stop(fault);
            None
        });
        let faults = line.into_faults().into_iter().chain(comment(text));
        match (record, faults.collect::<Vec<Fault>>()) {
            (Some(record), faults) if faults.is_empty() => Ok(record.into()),
            (_, faults) if faults.iter().any(is_no_term) => Err(Wrong::NoTerm(self.meant(text))),
            (_, faults) => Err(Wrong::Faults(faults)),
        }
    }

    /// The terms of which there is no record yet, in the order in which they get records.
    pub fn into_added(mut self) -> Vec<Term> {
        self.said.take_made()
    }
}

/// Whether no term begins where a word does.
fn is_no_term(fault: &Fault) -> bool {
    fault.column == 1 && fault.message.starts_with(NO_TERM)
}
