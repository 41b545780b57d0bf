//! The lines that say what people call names and roles: `name c1 "returned sample"`, `role r0 "is accompanied by"`. They make
//! no record.

#[cfg(test)]
mod tests;

use super::cursor::{quoted, Cursor, Fault};
use super::lines::{first_word, is_word};
use super::names::{Names, Sort, SORTS};
use super::records::FAULTS;
use super::terms::NO_ROLE;
use crate::display::counted;
use base::vocabulary::{Saying, Vocabulary};
use std::collections::BTreeSet;

/// The most characters that something is called by.
const LONGEST: usize = 200;

/// What a text calls names and roles, and what is wrong with the lines that say so.
#[derive(Default)]
pub struct Naming {
    /// What they are called.
    pub names: Names,
    /// What is wrong, in the order of the lines.
    pub faults: Vec<Fault>,
    /// Where each is called so.
    places: Vec<(Sort, u16, Fault)>,
}

/// The sort of a line that gives a name, be its word misspelt; none of other lines.
pub fn sort_of(line: &Cursor) -> Option<Sort> {
    let mut ahead = line.clone();
    skip_number(&mut ahead);
    // Most lines are told apart by this, which is quick.
    if !ahead.may_be(&SORTS.map(Sort::word)) {
        return None;
    }
    let word = first_word(&mut ahead).ok()?;
    SORTS.into_iter().find(|sort| sort.word() == word)
}

/// Moves past the number of a record; whether there was one.
fn skip_number(line: &mut Cursor) -> bool {
    let is_numbered = line.peek().is_some_and(|first| first.is_ascii_digit());
    line.skip_digits();
    line.skip(':');
    is_numbered
}

impl Naming {
    /// Reads lines that give names, of which each has to be one.
    pub fn read<'a>(lines: impl Iterator<Item = Cursor<'a>>) -> Naming {
        let mut naming = Naming::default();
        for mut line in lines {
            let read = naming.read_line(&mut line).and_then(|()| line.end());
            if let Err(fault) = read {
                line.stop(fault);
            }
            naming.faults.append(&mut line.into_faults());
            if naming.faults.len() > FAULTS {
                break;
            }
        }
        naming
    }

    fn read_line(&mut self, line: &mut Cursor) -> Result<(), Fault> {
        let start = line.here();
        if skip_number(line) {
            line.note(start, "this line makes no record, and has no number");
        }
        let words = SORTS.map(Sort::word);
        let word = line.choose(&words, "'name' or 'role' is expected here")?;
        let sort = if word == Sort::Role.word() {
            Sort::Role
        } else {
            Sort::Name
        };
        let place = line.here();
        let letter = sort.letter();
        let number = match sort {
            Sort::Name => line.lettered(letter, "a label, as c1, is expected here"),
            Sort::Role => line.lettered(letter, NO_ROLE),
        }?;
        let called_place = line.here();
        let called = line.quoted("a name in double quotes, as \"returned sample\", is expected here")?;
        let unfit = unfit(&called).or_else(|| self.taken(sort, &called));
        if let Some(why) = unfit {
            line.note(called_place, &why);
        } else if let Some(other) = self.called(sort, number) {
            let so = quoted(other);
            line.note(place, &self.already(sort, number, &so));
        } else {
            self.names.call(sort, number, &called);
            self.places.push((sort, number, line.fault_at(place, "")));
        }
        Ok(())
    }

    /// What something is called so far.
    fn called(&self, sort: Sort, number: u16) -> Option<&str> {
        match sort {
            Sort::Name => self.names.term(number),
            Sort::Role => self.names.role(number),
        }
    }

    /// That another is called so already.
    fn taken(&self, sort: Sort, called: &str) -> Option<String> {
        let number = self.names.find(sort, called)?;
        Some(self.already(sort, number, "so"))
    }

    /// That one is called so already, and by which line.
    fn already(&self, sort: Sort, number: u16, so: &str) -> String {
        let mut places = self.places.iter();
        let place = places.find(|(of, one, _)| (*of, *one) == (sort, number));
        let line = place.map_or(0, |(_, _, place)| place.line);
        format!("{}{number} is called {so} already, by line {line}", sort.letter())
    }

    /// What is called something and is not in the vocabulary.
    pub fn strangers(&self, vocabulary: &Vocabulary) -> Vec<Fault> {
        let label = |(_, saying): (u16, Saying)| match saying {
            Saying::Name(label) => Some(label),
            _ => None,
        };
        let labels: BTreeSet<u16> = vocabulary.sayings().filter_map(label).collect();
        let roles = vocabulary.get(0).b;
        let fault = |(sort, number, place): &(Sort, u16, Fault)| {
            let message = match sort {
                Sort::Name if !labels.contains(number) => format!("no record is the name c{number}"),
                Sort::Role if *number >= roles => {
                    format!(
                        "there is no role r{number}; the header says {}",
                        counted(roles.into(), "role")
                    )
                }
                _ => return None,
            };
            Some(Fault {
                message,
                ..place.clone()
            })
        };
        self.places.iter().filter_map(fault).take(FAULTS + 1).collect()
    }
}

/// Why nothing can be called so. Where a term is asked for, it would be taken for something else, or could hardly be told
/// from another.
fn unfit(called: &str) -> Option<String> {
    let is_numbered = |rest: &str| !rest.is_empty() && rest.bytes().all(|byte| byte.is_ascii_digit());
    let mut letters = called.chars();
    let first = letters.next().map(|first| first.to_ascii_lowercase());
    let why = if called.is_empty() {
        "a name has at least one character"
    } else if called.chars().count() > LONGEST {
        return Some(format!("a name has at most {LONGEST} characters"));
    } else if called.chars().any(char::is_control) {
        "a name has no control characters"
    } else if called.trim() != called {
        "a name has no blanks at its ends"
    } else if called.contains(['(', ')']) {
        "a name has no parentheses: it could be taken for a term"
    } else if called.starts_with('"') {
        "a name does not begin with a double quote: it could be taken for another in quotes"
    } else if is_numbered(called) || (matches!(first, Some('c' | 'r' | '#')) && is_numbered(letters.as_str())) {
        "this could be taken for a number, a record, a label or a role"
    } else if is_word(called) {
        "this is a word of texts, and no name"
    } else {
        return None;
    };
    Some(why.to_string())
}
