//! Terms of a vocabulary as texts have them.

use super::cursor::{Cursor, Fault, Here};
use super::names::Sort;
use super::said::{Said, Says, Term, Unsaid};
use base::vocabulary::{Record, Vocabulary};

/// What comes after the word of a term.
#[derive(Clone, Copy)]
pub enum Operands {
    /// Nothing.
    None,
    /// A label, as the name `c7` has it.
    Label,
    /// A term in parentheses.
    Term,
    /// Two terms or more in parentheses.
    Terms,
    /// A role and a term in parentheses.
    RoleAndTerm,
}

/// The words of terms. Of two that are as near to a misspelt word, the first is suggested.
pub const TERMS: [&str; 7] = [
    "owl:Nothing",
    "owl:Thing",
    "ObjectComplementOf",
    "ObjectIntersectionOf",
    "ObjectUnionOf",
    "ObjectSomeValuesFrom",
    "ObjectAllValuesFrom",
];
/// What is said where no term stands as an operand.
pub const NO_TERM: &str = "a term (c1, #7, owl:Thing, ObjectUnionOf(..), ..) is expected here";
/// What is said where a list ends too soon.
const TOO_FEW: &str = "a second term is expected here; there are two or more in such a list";
/// What is said where no role stands.
pub const NO_ROLE: &str = "a role, as r0, is expected here";
/// A record as texts name it, for messages.
const EXAMPLE: &str = "#7";

/// The kind of a term by its word, and what comes after that. A name has no word.
pub fn shape(word: &str) -> (u8, Operands) {
    match word {
        "owl:Thing" => (1, Operands::None),
        "owl:Nothing" => (2, Operands::None),
        "ObjectComplementOf" => (4, Operands::Term),
        "ObjectIntersectionOf" => (5, Operands::Terms),
        "ObjectUnionOf" => (6, Operands::Terms),
        "ObjectSomeValuesFrom" => (7, Operands::RoleAndTerm),
        "ObjectAllValuesFrom" => (8, Operands::RoleAndTerm),
        _ => (3, Operands::Label),
    }
}

/// The word that stands here, of a term or one of the others. The word of a name is empty: it stays, since its label is
/// part of it.
pub fn read_word(line: &mut Cursor, others: &[&'static str], expected: &str) -> Result<&'static str, Fault> {
    if line.is_lettered('c') || line.peek() == Some('"') {
        return Ok("");
    }
    let read = line.choose(&[others, &TERMS].concat(), expected);
    read.map_err(|fault| match fault.message == expected {
        true => line.missing(Sort::Name, expected),
        false => fault,
    })
}

/// A role, as `r0` or by what it is called, in quotation marks.
pub fn read_role(line: &mut Cursor) -> Result<u16, Fault> {
    if line.peek() == Some('"') {
        return line.called(Sort::Role);
    }
    if !line.is_lettered('r') {
        return Err(line.missing(Sort::Role, NO_ROLE));
    }
    line.lettered('r', NO_ROLE)
}

/// The label of a name, as `c7` or by what it is called, in quotation marks.
pub fn read_label(line: &mut Cursor) -> Result<u16, Fault> {
    if line.peek() == Some('"') {
        return line.called(Sort::Name);
    }
    if !line.is_lettered('c') {
        return Err(line.missing(Sort::Name, NO_TERM));
    }
    line.lettered('c', NO_TERM)
}

/// The beginning of a term: where it stands, how deep, and its word.
#[derive(Clone, Copy)]
pub struct Begun {
    /// Its place.
    pub place: Here,
    /// Its nesting, from 1.
    pub nesting: usize,
    /// Its kind, and what comes after its word.
    pub shape: (u8, Operands),
}

/// A term of which the word is taken.
pub fn read_term(line: &mut Cursor, said: &mut Said, begun: Begun) -> Result<Term, Fault> {
    let (kind, operands) = begun.shape;
    let nesting = begun.nesting + 1;
    let (a, b) = match operands {
        Operands::None => (Some(0), Some(0)),
        Operands::Label => (Some(read_label(line)?), Some(0)),
        Operands::Term => {
            line.symbol('(')?;
            let a = operand(line, said, nesting)?;
            line.symbol(')')?;
            (a, Some(0))
        }
        Operands::Terms => return read_terms(line, said, begun),
        Operands::RoleAndTerm => {
            line.symbol('(')?;
            let both = (Some(read_role(line)?), operand(line, said, nesting)?);
            line.symbol(')')?;
            both
        }
    };
    Ok(Term { kind, a, b })
}

/// An intersection or a union. Of more than two terms, the first two make one, which makes one with the next.
fn read_terms(line: &mut Cursor, said: &mut Said, Begun { place, nesting, shape }: Begun) -> Result<Term, Fault> {
    let (kind, _) = shape;
    line.symbol('(')?;
    let mut list = List::default();
    let a = list.next(line, said, nesting + 1)?;
    let b = list.next(line, said, nesting + 1)?;
    let mut term = Term { kind, a, b };
    while list.has_more(line) {
        let first = list.count;
        let a = said.record_of(term, |said| {
            let missing = said.missing(&format!("the term of the first {first} of these"));
            line.note(place, &missing);
        });
        let b = list.next(line, said, nesting + 1)?;
        term = Term { kind, a, b };
    }
    line.symbol(')')?;
    Ok(term)
}

/// A list of terms, of which there are at least two.
#[derive(Default)]
pub struct List {
    /// How many were read.
    pub count: usize,
}

impl List {
    /// Whether another term stands here.
    pub fn has_more(&self, line: &Cursor) -> bool {
        self.count < 2 || !(line.at_end() || line.peek() == Some(')'))
    }

    /// The record of the next term.
    pub fn next(&mut self, line: &mut Cursor, said: &mut Said, nesting: usize) -> Result<Option<u16>, Fault> {
        if self.count == 1 && line.peek() == Some(')') {
            return Err(line.fault(TOO_FEW));
        }
        self.count += 1;
        operand(line, said, nesting)
    }
}

/// The record of an operand: `#7`, or a term that is said or made.
pub fn operand(line: &mut Cursor, said: &mut Said, nesting: usize) -> Result<Option<u16>, Fault> {
    said.reference(line, nesting, EXAMPLE, |line, said| {
        let place = line.here();
        let shape = shape(read_word(line, &[], NO_TERM)?);
        read_term(line, said, Begun { place, nesting, shape })
    })
}

/// The record of a term.
pub fn record(term: Term) -> Record {
    let (a, b) = term.numbers();
    Record {
        kind: term.kind,
        a,
        b,
        ..Record::default()
    }
}

/// What a record says that is given by its fields.
pub fn raw_says(raw: Record) -> Says {
    let term = Term::new(raw.kind, raw.a, raw.b);
    if record(term) == raw {
        Says::Term(term)
    } else {
        Says::Nothing
    }
}

/// What the records of a vocabulary say.
pub fn said_by(vocabulary: &Vocabulary, unsaid: Unsaid) -> Said {
    let mut said = Said::of_records(unsaid, vocabulary.records.len());
    for (number, record) in vocabulary.numbered() {
        said.add(number as u16, raw_says(record));
    }
    said
}
