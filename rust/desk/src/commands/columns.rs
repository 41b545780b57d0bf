//! `desk columns`.

#[cfg(test)]
mod tests;

use super::{read_vocabulary, read_words, written, WORDS};
use crate::columns::{braced, has_y, literals, of_record, Column, Literal, QUERY};
use crate::console::Console;
use crate::input::Input;
use crate::json::Json;
use crate::refused;
use crate::report::{Report, Stop};
use crate::term;
use crate::text::vocabulary::Written;
use base::arguments::{Arguments, Flag};
use base::vocabulary::STATEMENT_KIND;
use base::{Failure, Status};
use std::collections::BTreeSet;
use std::ffi::OsStr;

/// The options.
pub const FLAGS: &[Flag] = &[WORDS];

pub fn run(arguments: &Arguments, console: &mut Console) -> Result<Status, Stop> {
    let (path, owner) = read_arguments(arguments)?;
    let mut input = read_vocabulary(path, console.style)?;
    let words = read_words(arguments, console.style)?;
    input.take_names(words.as_ref());
    if let Err(refusal) = judge::check_vocabulary(&input.bytes) {
        return Ok(console.answer(refused::report(console.style, &input, refusal, None))?);
    }
    let written = written(&input, words.as_ref())?;
    let owners = match owner {
        Some(owner) => {
            let number = term::existing(console.style, &input, owner, "OWNER")?;
            vec![existing(&input, &written, number)?]
        }
        None => (0..written.vocabulary().records.len() as u16).collect(),
    };
    Ok(console.answer(listed(&input, &written, owners))?)
}

/// VOCABULARY, and OWNER where it is given.
fn read_arguments(arguments: &Arguments) -> Result<(&OsStr, Option<&OsStr>), Failure> {
    if arguments.all().len() < 2 {
        let [path] = arguments.words(["VOCABULARY"])?;
        return Ok((path, None));
    }
    let [path, owner] = arguments.words(["VOCABULARY", "OWNER"])?;
    Ok((path, Some(owner)))
}

/// A record number, if the vocabulary has it.
fn existing(input: &Input, written: &Written, owner: u32) -> Result<u16, Failure> {
    let number = u16::try_from(owner).ok();
    let number = number.filter(|number| usize::from(*number) < written.vocabulary().records.len());
    number.ok_or_else(|| {
        let last = written.vocabulary().records.len().saturating_sub(1);
        let message = format!(
            "{}: there is no record {owner}; the vocabulary ends at record {last}",
            input.name
        );
        Failure::new(Status::Refused, message)
    })
}

/// The columns of owners.
fn listed(input: &Input, written: &Written, owners: Vec<u16>) -> Report {
    let chained = written.vocabulary().chained();
    let owners: Vec<Owner> = owners
        .into_iter()
        .map(|number| Owner::new(written, &chained, number))
        .collect();
    let text = owners.iter().map(Owner::text).collect();
    let json = vec![
        ("file", Json::from(input.name.as_str())),
        ("verdict", Json::from("listed")),
        ("owners", Json::list(owners.iter().map(Owner::json))),
    ];
    Report::new(Status::Holds, text, json)
}

/// A column as it is listed.
struct Listed {
    literals: Vec<String>,
    y: bool,
}

/// An owner with its columns.
struct Owner<'a> {
    written: &'a Written,
    number: u16,
    /// Of a statement, whether it is on the chain.
    chained: Option<bool>,
    columns: Vec<Listed>,
    /// The other terms that its columns name.
    terms: BTreeSet<u16>,
}

impl Owner<'_> {
    fn new<'a>(written: &'a Written, chained: &[bool], number: u16) -> Owner<'a> {
        let at = usize::from(number);
        let list = of_record(written.vocabulary(), chained, number);
        let is_statement = number > 0 && written.vocabulary().get(at).kind == STATEMENT_KIND;
        let listed = |column: &Column| Listed {
            literals: literals(number, column),
            y: has_y(column),
        };
        let of_query = |literal: &str| Listed {
            literals: vec![literal.to_string()],
            y: false,
        };
        Owner {
            written,
            number,
            chained: is_statement.then(|| chained.get(at) == Some(&true)),
            columns: match number {
                0 => QUERY.map(of_query).into(),
                _ => list.iter().map(listed).collect(),
            },
            terms: list
                .iter()
                .flatten()
                .filter_map(|literal| operand(literal, number))
                .collect(),
        }
    }

    fn text(&self) -> String {
        let mut lines = vec![match self.number {
            0 => format!("owner 0: the query, {}", self.expression()),
            number => format!("record {number}: {}", self.written.called(number)),
        }];
        for (i, Listed { literals, y }) in self.columns.iter().enumerate() {
            let y = if *y { ", with y" } else { "" };
            lines.push(format!("  column {i}: {}{y}", braced(literals)));
        }
        if self.columns.is_empty() {
            let why = match self.chained {
                Some(_) => "the statement is off the chain",
                None => "it is a name",
            };
            lines.push(format!("  no columns: {why}"));
        }
        if self.written.has_words() {
            let named = |term: &u16| format!("  C{term} = {}", self.written.called(*term));
            lines.extend(self.terms.iter().map(named));
        }
        lines.push(String::new());
        lines.join("\n")
    }

    /// What the record says; of the query, its general form.
    fn expression(&self) -> String {
        match self.number {
            0 => "A within B".to_string(),
            number => self.written.expression(number.into()).unwrap_or_default(),
        }
    }

    fn json(&self) -> Json {
        let column = |(i, column): (usize, &Listed)| {
            Json::object([
                ("column", Json::from(i)),
                ("y", Json::from(column.y)),
                ("literals", Json::list(column.literals.iter().map(String::as_str))),
            ])
        };
        let words = self.written.words(self.number).filter(|_| self.number > 0);
        let mut fields = vec![("owner", Json::from(self.number))];
        fields.extend(self.written.name_field(self.number));
        fields.extend([("text", Json::from(self.expression())), ("words", Json::from(words))]);
        fields.extend(self.chained.map(|chained| ("chained", Json::from(chained))));
        fields.push(("columns", Json::list(self.columns.iter().enumerate().map(column))));
        Json::Object(fields)
    }
}

/// The term that a literal is about, unless it is the owner's own.
fn operand<T>(literal: &Literal<T>, owner: u16) -> Option<u16> {
    match literal {
        Literal::In(_, record, _) if *record != owner => Some(*record),
        _ => None,
    }
}
