//! Refusals of a vocabulary.

use crate::display::{counted, grouped};
use base::vocabulary::{Record, Vocabulary, HEADER_KIND, STATEMENT_KIND};
use judge::{Edition, Refusal, Rule};

/// What is wrong at the place of a refusal.
pub fn detail(vocabulary: &Vocabulary, refusal: Refusal) -> Option<String> {
    let number = refusal.place as usize;
    let record = vocabulary.get(number);
    match refusal.rule {
        Rule::Header => header(record),
        Rule::Kind => kind(record),
        Rule::UnusedField => unused(record),
        Rule::TermNumber => operand(vocabulary, number, record),
        Rule::Role => role(vocabulary, record),
        Rule::Label => label(vocabulary, number, record),
        Rule::Link => link(vocabulary, number),
        Rule::RecordNumber => absent(vocabulary, number).map(|_| end(vocabulary)),
        Rule::Query => asked(vocabulary, number),
        Rule::AtomCount => atoms(vocabulary, number),
        _ => None,
    }
}

/// What is wrong with a record that is not added to a vocabulary.
pub fn addition(vocabulary: &Vocabulary, record: Record, refusal: Refusal) -> Option<String> {
    let number = vocabulary.records.len();
    match refusal.rule {
        Rule::Kind => Some(format!(
            "the kind is {}, and a term that is added has 1 to 8",
            record.kind
        )),
        Rule::UnusedField => unused(record),
        Rule::TermNumber => operand(vocabulary, number, record),
        Rule::Role => role(vocabulary, record),
        Rule::Label => label(vocabulary, number, record),
        _ => None,
    }
}

/// A record with its kind in words.
pub fn named(vocabulary: &Vocabulary, number: usize) -> String {
    format!("record {number}, {}", kind_words(vocabulary, number))
}

/// The kind of a record in words.
fn kind_words(vocabulary: &Vocabulary, number: usize) -> String {
    let words = match vocabulary.get(number).kind {
        _ if number == 0 => "the header",
        1 => "top",
        2 => "bottom",
        3 => "a name",
        4 => "a complement",
        5 => "an intersection",
        6 => "a union",
        7 => "a some restriction",
        8 => "an all restriction",
        STATEMENT_KIND => "a statement",
        kind => return format!("of kind {kind}"),
    };
    words.to_string()
}

/// Whether a number names a term.
pub fn is_term(vocabulary: &Vocabulary, number: usize) -> bool {
    number > 0 && vocabulary.get(number).is_term()
}

/// That a record is missing, if it is.
pub fn absent(vocabulary: &Vocabulary, number: usize) -> Option<String> {
    let is_absent = number >= vocabulary.records.len();
    is_absent.then(|| format!("there is no record {number}; {}", end(vocabulary)))
}

/// Where the vocabulary ends.
fn end(vocabulary: &Vocabulary) -> String {
    format!(
        "the vocabulary ends at record {}",
        vocabulary.records.len().saturating_sub(1)
    )
}

/// Why what a field or a header names is no term, if it is none.
pub fn no_term(vocabulary: &Vocabulary, what: &str, number: usize) -> Option<String> {
    if number >= vocabulary.records.len() {
        return Some(format!("{what} is record {number}, and {}", end(vocabulary)));
    }
    let named = || format!("{what} is {}, and no term", named(vocabulary, number));
    (!is_term(vocabulary, number)).then(named)
}

/// 10, of a number that was asked about.
fn asked(vocabulary: &Vocabulary, number: usize) -> Option<String> {
    let other = || format!("record {number} is {}", kind_words(vocabulary, number));
    absent(vocabulary, number).or_else(|| (!is_term(vocabulary, number)).then(other))
}

/// 2
pub fn header(record: Record) -> Option<String> {
    let Record {
        kind, second, b, next, ..
    } = record;
    if kind != HEADER_KIND {
        Some(format!("the kind is {kind}, and a header has {HEADER_KIND}"))
    } else if Edition::of(second).is_none() {
        Some(format!("the second byte is {second}, and a header has 1 or 2"))
    } else if usize::from(b) > judge::ROLES {
        Some(format!("the number of roles is {b}, and the most is {}", judge::ROLES))
    } else {
        let is_wrong = second == Edition::One.number() && next != 0;
        is_wrong.then(|| format!("next is {next}, and a header of edition 1 has 0"))
    }
}

/// 3
pub fn kind(record: Record) -> Option<String> {
    let Record { kind, second, .. } = record;
    if !(1..=STATEMENT_KIND).contains(&kind) {
        return Some(format!("the kind is {kind}, and records have 1 to {STATEMENT_KIND}"));
    }
    (second != 0).then(|| format!("the second byte is {second}, and records have 0"))
}

/// 4
pub fn unused(record: Record) -> Option<String> {
    let (words, used) = match record.kind {
        1 => ("top uses no field", 0),
        2 => ("bottom uses no field", 0),
        3 => ("a name uses A only", 1),
        4 => ("a complement uses A only", 1),
        5 => ("an intersection uses A and B only", 2),
        6 => ("a union uses A and B only", 2),
        7 => ("a some restriction uses A and B only", 2),
        8 => ("an all restriction uses A and B only", 2),
        _ => return None,
    };
    let fields = [("A", record.a), ("B", record.b), ("next", record.next)];
    let (field, value) = fields.into_iter().skip(used).find(|(_, value)| *value != 0)?;
    Some(format!("{field} is {value}, and {words}"))
}

/// 5
pub fn operand(vocabulary: &Vocabulary, number: usize, record: Record) -> Option<String> {
    let fields: &[_] = match record.kind {
        4 => &[("A", record.a)],
        5 | 6 | STATEMENT_KIND => &[("A", record.a), ("B", record.b)],
        7 | 8 => &[("B", record.b)],
        _ => &[],
    };
    fields.iter().find_map(|(field, value)| {
        let operand = usize::from(*value);
        if (number..vocabulary.records.len()).contains(&operand) {
            return Some(format!("{field} is record {operand}, which is not before this one"));
        }
        no_term(vocabulary, field, operand)
    })
}

/// 6
pub fn role(vocabulary: &Vocabulary, record: Record) -> Option<String> {
    let roles = vocabulary.get(0).b;
    let is_wrong = matches!(record.kind, 7 | 8) && record.a >= roles;
    is_wrong.then(|| {
        let roles = counted(roles.into(), "role");
        format!("the role is {}, and the header has {roles}", record.a)
    })
}

/// 7
pub fn label(vocabulary: &Vocabulary, number: usize, record: Record) -> Option<String> {
    let is_same = |(_, earlier): &(usize, Record)| record.kind == 3 && earlier.kind == 3 && earlier.a == record.a;
    let (first, _) = vocabulary.numbered().take_while(|(i, _)| *i < number).find(is_same)?;
    Some(format!("the label is {}, and record {first} has it first", record.a))
}

/// 8
pub fn link(vocabulary: &Vocabulary, number: usize) -> Option<String> {
    let record = vocabulary.get(number);
    let (what, link) = match (number, record.kind) {
        (0, _) => ("the first statement", record.a),
        (_, STATEMENT_KIND) => ("its next", record.next),
        _ => return None,
    };
    let to = usize::from(link);
    if link == 0 {
        None
    } else if to >= vocabulary.records.len() {
        Some(format!("{what} is record {to}, and {}", end(vocabulary)))
    } else if to <= number {
        Some(format!("{what} is record {to}, which is not after this one"))
    } else {
        let is_statement = vocabulary.get(to).kind == STATEMENT_KIND;
        (!is_statement).then(|| format!("{what} is {}, and no statement", named(vocabulary, to)))
    }
}

/// 28, where the vocabulary has so many atoms.
pub fn atoms(vocabulary: &Vocabulary, atoms: usize) -> Option<String> {
    let header = vocabulary.get(0);
    let is_wrong = header.second == Edition::Two.number() && usize::from(header.next) != atoms;
    let (held, are) = (
        counted(header.next.into(), "atom"),
        if atoms == 1 { "is" } else { "are" },
    );
    is_wrong.then(|| format!("the header says {held}; there {are} {}", grouped(atoms as u64)))
}
