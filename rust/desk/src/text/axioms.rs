//! Axioms of OWL 2, as the statements that they stand for.

use super::cursor::{Cursor, Fault};
use super::records::RECORDS;
use super::said::{Said, Term};
use super::terms::{operand, read_role, List};

/// The words of axioms.
pub const AXIOMS: [&str; 5] = [
    WITHIN,
    EQUIVALENT,
    DISJOINT,
    "ObjectPropertyDomain",
    "ObjectPropertyRange",
];
/// The word of a statement.
pub const WITHIN: &str = "SubClassOf";
const EQUIVALENT: &str = "EquivalentClasses";
const DISJOINT: &str = "DisjointClasses";
/// What is said where no axiom stands.
pub const NO_AXIOM: &str = "a statement (SubClassOf(..), EquivalentClasses(..), ..) is expected here";

/// A and B of a statement; none where a faulty line leaves it open.
pub type Statement = (Option<u16>, Option<u16>);

/// The statements of an axiom, of which the word is taken. There is at least one.
pub fn read_axiom(line: &mut Cursor, said: &mut Said, word: &str) -> Result<Vec<Statement>, Fault> {
    line.symbol('(')?;
    let statements = match word {
        WITHIN => vec![(operand(line, said, 1)?, operand(line, said, 1)?)],
        EQUIVALENT => round(&read_list(line, said)?),
        DISJOINT => read_disjoint(line, said)?,
        "ObjectPropertyDomain" => vec![read_domain(line, said)?],
        _ => vec![read_range(line, said)?],
    };
    line.symbol(')')?;
    Ok(statements)
}

/// Terms that are all equal: each within the next, and the last within the first. Fewer statements cannot say it.
fn round(terms: &[Option<u16>]) -> Vec<Statement> {
    let next = terms.iter().cycle().skip(1);
    terms.iter().zip(next).map(|(a, b)| (*a, *b)).collect()
}

/// The records of a list of terms.
fn read_list(line: &mut Cursor, said: &mut Said) -> Result<Vec<Option<u16>>, Fault> {
    let (mut list, mut terms) = (List::default(), Vec::new());
    while list.has_more(line) {
        terms.push(list.next(line, said, 1)?);
    }
    Ok(terms)
}

/// Terms of which no two have an element in common: each within the complement of each later one. Of a long list these are
/// very many: reading ends at the first for which there is no number.
fn read_disjoint(line: &mut Cursor, said: &mut Said) -> Result<Vec<Statement>, Fault> {
    let (mut list, mut terms) = (List::default(), Vec::new());
    while list.has_more(line) {
        let term = list.next(line, said, 1)?;
        // The first is in no complement.
        let complement = if terms.is_empty() {
            None
        } else {
            made(said, 4, term, Some(0))
        };
        terms.push((term, complement));
    }
    let with_later = |(place, (term, _)): (usize, &Statement)| {
        let (term, later) = (*term, terms.iter().skip(place + 1));
        later.map(move |(_, complement)| (term, *complement))
    };
    Ok(terms.iter().enumerate().flat_map(with_later).take(RECORDS).collect())
}

/// What has something by a role lies within a term.
fn read_domain(line: &mut Cursor, said: &mut Said) -> Result<Statement, Fault> {
    let role = read_role(line)?;
    let top = made(said, 1, Some(0), Some(0));
    let some = made(said, 7, Some(role), top);
    Ok((some, operand(line, said, 1)?))
}

/// What anything has by a role lies within a term.
fn read_range(line: &mut Cursor, said: &mut Said) -> Result<Statement, Fault> {
    let role = read_role(line)?;
    let top = made(said, 1, Some(0), Some(0));
    let term = operand(line, said, 1)?;
    Ok((top, made(said, 8, Some(role), term)))
}

/// The record of a term that an axiom needs, in a text, where terms are made that no line says.
fn made(said: &mut Said, kind: u8, a: Option<u16>, b: Option<u16>) -> Option<u16> {
    said.record_of(Term { kind, a, b }, |_| ())
}
