//! The terms that a line of a table names, in the old vocabulary and in the new one.

use super::super::recheck::asked::asked;
use super::super::recheck::kept::Known;
use super::super::recheck::line::{repeated, Field, Row};
use super::super::written;
use super::records::{Shape, Shapes, Side};
use crate::json::Json;
use base::arguments::digits;

/// A term of a line that is not the same in both vocabularies.
pub struct Term {
    /// Whether it is A or B.
    letter: &'static str,
    /// How the line names it.
    word: String,
    /// The number by which it does, if it is one.
    number: Option<u32>,
    /// What that is in each, if that is a term.
    names: [Option<String>; 2],
    /// The record of the new vocabulary that says what it was in the old one.
    moved: Option<u16>,
}

impl Term {
    /// What people read.
    pub fn words(&self) -> String {
        let named = |name: &Option<String>| name.clone().unwrap_or_else(|| "no term".to_string());
        let [was, is] = self.names.each_ref().map(named);
        let moved = match (self.moved, &self.names) {
            (Some(moved), _) => format!("; what it was is term {moved}"),
            (None, [Some(_), _]) => "; no record says what it was".to_string(),
            (None, _) => String::new(),
        };
        let word = match self.number {
            Some(number) => format!("term {number}"),
            None => self.word.clone(),
        };
        format!("{}: {word} was {was}, is {is}{moved}", self.letter)
    }

    /// What programs read.
    pub fn json(&self) -> Json {
        let [old, new] = self.names.clone().map(Json::from);
        Json::object([
            ("term", Json::from(self.letter)),
            ("number", Json::from(self.number)),
            ("old", old),
            ("new", new),
            ("moved", Json::from(self.moved)),
        ])
    }
}

/// What a word names in a vocabulary.
#[derive(Default)]
struct Named {
    /// What the term says.
    shape: Option<Shape>,
    /// How it is shown.
    name: Option<String>,
}

impl Named {
    /// The term of a record.
    fn of(side: &Side, number: u32) -> Named {
        let shape = side.term(number);
        Named {
            shape,
            name: shape.map(|_| side.written.called(number as u16)),
        }
    }
}

/// The terms of a line that are not the same in both vocabularies, and the records of the new one that say what its terms
/// were in the old one, if each has one.
pub fn changed(row: &Row, known: &[Known; 2], sides: [&Side; 2], shapes: &mut Shapes) -> (Vec<Term>, Option<[u32; 2]>) {
    let ([old, new], [old_side, new_side]) = (known, sides);
    let mut terms = Vec::new();
    let mut meant = Vec::new();
    for (letter, field) in ["A", "B"].into_iter().zip(row.pair) {
        // Each by itself: one that names nothing leaves the other what it is.
        let alone = Row {
            pair: [field; 2],
            ..*row
        };
        let [old, new] = [(old, old_side), (new, new_side)].map(|(known, side)| named(&alone, known, side, shapes));
        let moved = old.shape.and_then(|shape| new_side.first(shape));
        meant.extend(moved.map(u32::from));
        if old.shape != new.shape {
            terms.push(Term {
                letter,
                word: repeated(field.text),
                number: number(field),
                names: [old.name, new.name],
                moved,
            });
        }
    }
    (terms, meant.try_into().ok())
}

/// What a line names twice in a vocabulary.
fn named(row: &Row, known: &Known, side: &Side, shapes: &mut Shapes) -> Named {
    let [field, _] = row.pair;
    if let Some(number) = number(field) {
        return Named::of(side, number);
    }
    let Ok(asked) = asked(known, row) else {
        return Named::default();
    };
    let [number, _] = asked.pair;
    match known.extended(&asked) {
        Ok(None) => Named::of(side, number),
        // Of a term that no record says, a copy is looked at that has it.
        Ok(Some(copy)) => written(&copy.input, None)
            .map_or_else(|_| Named::default(), |written| Named::of(&shapes.side(written), number)),
        Err(_) => Named::default(),
    }
}

/// The record that a field names by its number.
fn number(field: Field) -> Option<u32> {
    digits(field.text.strip_prefix('#').unwrap_or(field.text))
}
