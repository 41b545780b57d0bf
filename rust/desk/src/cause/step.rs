//! Refusal 18: what a step names that does not exist for it.

use super::script::Checked;
use super::{from_zero, vocabulary, Reason};
use crate::columns::{braced, has_y, literals, of_record, query, Column};
use crate::script::{Entry, Extension};

impl Checked {
    /// 18
    pub fn step(&self, number: usize) -> Option<Reason> {
        match Entry::read(self.get(number))? {
            Entry::Start(column) if column > 1 => Some(Reason::own(format!(
                "a start's query column is 0 or 1, and this is {column}"
            ))),
            Entry::Extend(e) => self.extension(e, number),
            _ => None,
        }
    }

    /// The first part of an extension that does not exist, in the order owner, column, x, y, position.
    fn extension(&self, e: Extension, number: usize) -> Option<Reason> {
        let list = match self.list(e.owner) {
            Ok(list) => list,
            Err(words) => return Some(Reason::foreign(words)),
        };
        let Some(column) = list.get(usize::from(e.column)) else {
            let (owner, there) = (self.owner(e.owner), from_zero("column", list.len()));
            let words = format!("{owner} has {there}, and the step names column {}", e.column);
            return Some(of_owner(e, words));
        };
        self.x(e, number)
            .or_else(|| self.y(e, column, number))
            .or_else(|| position(e, column))
    }

    /// The columns of an owner, or why there are none.
    fn list(&self, owner: u16) -> Result<Vec<Column>, String> {
        let [_, a, b, ..] = self.get(0);
        let number = usize::from(owner);
        if owner == 0 {
            return Ok(query(a, b));
        }
        if let Some(absent) = vocabulary::absent(&self.vocabulary, number) {
            return Err(absent);
        }
        let list = of_record(&self.vocabulary, &self.chained, owner);
        if !list.is_empty() {
            return Ok(list);
        }
        let named = vocabulary::named(&self.vocabulary, number);
        Err(if vocabulary::is_term(&self.vocabulary, number) {
            format!("{named}, has no columns")
        } else {
            format!("{named}, is off the chain, so it has no column")
        })
    }

    /// The owner as the subject of a sentence.
    fn owner(&self, owner: u16) -> String {
        match owner {
            0 => "the query".to_string(),
            _ => format!("{},", vocabulary::named(&self.vocabulary, owner.into())),
        }
    }

    /// What is wrong with the term for x.
    fn x(&self, e: Extension, number: usize) -> Option<Reason> {
        if e.owner == 0 && e.x != 1 {
            let given = e.x;
            return Some(Reason::own(format!(
                "the query's columns take x = script record 1, the constant a, and the step gives script record {given}"
            )));
        }
        self.no_term("x", e.x, number)
    }

    /// What is wrong with the term for y.
    fn y(&self, e: Extension, column: &Column, number: usize) -> Option<Reason> {
        let place = column_of(e);
        match (has_y(column), e.y) {
            (true, 0) => Some(of_owner(e, format!("y is missing: {place} has a y"))),
            (true, y) => self.no_term("y", y, number),
            (false, 0) => None,
            (false, y) => {
                let words = format!("no y stands in {place}, and the step gives script record {y} for it");
                Some(of_owner(e, words))
            }
        }
    }
}

/// What is wrong with the position.
fn position(e: Extension, column: &Column) -> Option<Reason> {
    let (place, position) = (column_of(e), e.position);
    let (text, there) = (braced(&literals(e.owner, column)), from_zero("position", column.len()));
    let is_wrong = usize::from(position) >= column.len();
    let words = || format!("{place}, {text}, has {there}, and the step names position {position}");
    is_wrong.then(|| of_owner(e, words()))
}

/// A fault in what an extension names of its owner, which is of the vocabulary unless it is the query.
fn of_owner(e: Extension, words: String) -> Reason {
    match e.owner {
        0 => Reason::own(words),
        _ => Reason::foreign(words),
    }
}

/// The column that an extension names.
fn column_of(e: Extension) -> String {
    match e.owner {
        0 => format!("column {} of the query", e.column),
        owner => format!("column {} of record {owner}", e.column),
    }
}
