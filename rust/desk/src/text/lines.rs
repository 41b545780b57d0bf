//! The lines of a vocabulary's text.

use super::axioms::{read_axiom, Statement, AXIOMS, NO_AXIOM};
use super::cursor::{Cursor, Fault};
use super::records::{read_link, Form, Linked, Records, Unread};
use super::said::{Said, Says, Term, Unsaid};
use super::terms::{raw_says, read_term, read_word, record, shape, Begun, TERMS};
use super::vocabulary::with_atoms;
use super::{Line, FIRST};
use base::vocabulary::{Record, Saying, Vocabulary};
use judge::Edition;

/// The words that a line begins with, beside those of terms and of axioms.
const OTHERS: [&str; 4] = [RAW, "off", "name", "role"];
/// The word of a record that is given by its fields.
const RAW: &str = "raw";
/// A word that may follow a header's number of roles.
const EDITION: &str = "edition";
/// What is said of a line that begins with none of them.
const NO_RECORD: &str =
    "a term (c1, owl:Thing, ObjectUnionOf(..), ..) or a statement (SubClassOf(..)) is expected here";

/// The bytes of a vocabulary's text, of whose header the first word is taken, and the line of each record.
pub fn read<'a>(
    header: Cursor<'a>,
    lines: impl Iterator<Item = Cursor<'a>>,
) -> Result<(Vec<u8>, Vec<Line>), Vec<Fault>> {
    let form = Form {
        header: |line| read_header(line).map_err(Unread::no_term),
        record: read_record,
        made: record,
        set_link: |record: &mut Record, number, link| match number {
            0 => record.a = link,
            _ => record.next = link,
        },
    };
    // A header that is given by its fields has all of them.
    let is_raw = header.clone().keyword(RAW);
    let (records, lines) = form.read(Said::new(Unsaid::Made), header, lines)?;
    let mut vocabulary = Vocabulary { records };
    let counted = with_atoms(vocabulary.get(0), &vocabulary);
    if let Some(header) = vocabulary.records.first_mut().filter(|_| !is_raw) {
        *header = counted;
    }
    Ok((vocabulary.bytes(), lines))
}

fn read_header(line: &mut Cursor) -> Result<Linked<Record>, Fault> {
    let (record, link) = if line.choose(&["roles", RAW], "'roles' is expected here")? == RAW {
        let record = read_raw(line)?;
        (record, Some(record.a))
    } else {
        let roles = line.number()?;
        let record = Record::header(read_edition(line)?, roles);
        (record, read_link(line, FIRST)?)
    };
    Ok(Linked {
        link,
        ..Linked::unchained(record, Says::Nothing)
    })
}

/// The edition that may stand here; where none does, it is that of new vocabularies.
fn read_edition(line: &mut Cursor) -> Result<Edition, Fault> {
    let mut ahead = line.clone();
    // A misspelt word is the one that it means, of those that may stand here.
    if ahead.at_end() || ahead.choose(&[EDITION, FIRST], "") != Ok(EDITION) {
        return Ok(Edition::Two);
    }
    *line = ahead;
    let place = line.here();
    let number = line.number()?;
    let edition = u8::try_from(number).ok().and_then(Edition::of);
    edition.ok_or_else(|| line.fault_at(place, "the edition of a vocabulary is 1 or 2"))
}

/// A record by its fields; the word `raw` is taken.
fn read_raw(line: &mut Cursor) -> Result<Record, Fault> {
    let place = line.here();
    let numbers = line.numbers(5)?;
    if let [kind, second, a, b, next] = numbers[..] {
        if let (Ok(kind), Ok(second)) = (u8::try_from(kind), u8::try_from(second)) {
            return Ok(Record {
                kind,
                second,
                a,
                b,
                next,
            });
        }
    }
    let message = "five numbers are expected here: kind and second byte, up to 255, A, B and next";
    Err(line.fault_at(place, message))
}

/// The word that a line begins with; that of a name is empty, and stays.
pub fn first_word(line: &mut Cursor) -> Result<&'static str, Fault> {
    read_word(line, &[&OTHERS[..], &AXIOMS].concat(), NO_RECORD)
}

/// Whether this is a word of texts, be it of the wrong case.
pub fn is_word(word: &str) -> bool {
    let mut words = OTHERS.iter().chain(&AXIOMS).chain(&TERMS);
    words.any(|known| known.eq_ignore_ascii_case(word))
}

/// The records of a line.
fn read_record(line: &mut Cursor, said: &mut Said) -> Records<Record> {
    let place = line.here();
    match first_word(line)? {
        RAW => {
            let record = read_raw(line)?;
            Ok(vec![Linked::unchained(record, raw_says(record))])
        }
        "off" => {
            let word = line.choose(&AXIOMS, NO_AXIOM)?;
            statements(line, said, word, false).map_err(Unread::no_term)
        }
        // Only after another record on one line: else such lines are read before.
        "name" | "role" => Err(Unread::no_term(line.fault(NO_RECORD))),
        word if AXIOMS.contains(&word) => statements(line, said, word, true).map_err(Unread::no_term),
        word => {
            let shape = shape(word);
            let says = Says::Term(Term::of_kind(shape.0));
            let begun = Begun {
                place,
                nesting: 1,
                shape,
            };
            let term = read_term(line, said, begun).map_err(|fault| Unread { fault, says })?;
            Ok(vec![Linked::unchained(record(term), Says::Term(term))])
        }
    }
}

/// The statements of an axiom; its word is taken.
fn statements(line: &mut Cursor, said: &mut Said, word: &str, on: bool) -> Result<Vec<Linked<Record>>, Fault> {
    let statements = read_axiom(line, said, word)?;
    let place = line.here();
    let link = read_link(line, "next")?;
    if link.is_some() && statements.len() > 1 {
        let message = "this line is of several statements, which have no other links than the chain's";
        return Err(line.fault_at(place, message));
    }
    let linked = |(a, b): Statement| Linked {
        record: Saying::Within(a.unwrap_or(0), b.unwrap_or(0)).record(link.unwrap_or(0)),
        on,
        link,
        says: Says::Nothing,
    };
    Ok(statements.into_iter().map(linked).collect())
}
