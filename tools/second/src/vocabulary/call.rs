//! The vocabulary check (rows 1 to 8 of the table, then 28) and the record call (rows 1 and 9).

use crate::vocabulary::records::{at, uses, Record, Use, A, B, NEXT, RECORD_BYTES};
use crate::vocabulary::rules::{Paper, Rules};

/// The most records of a vocabulary, header included.
pub const MOST_RECORDS: usize = 512;
/// The most roles of a vocabulary.
pub const MOST_ROLES: u16 = 64;

/// A refusal: its number in the table, and its place.
#[derive(Clone, Copy, Debug, PartialEq, Eq)]
pub struct Refusal {
    /// Its number.
    pub number: u8,
    /// Its place.
    pub place: usize,
}

/// Refuses with a number and a place where a condition applies.
pub fn refuse_if(applies: bool, number: u8, place: usize) -> Result<(), Refusal> {
    if applies {
        Err(Refusal { number, place })
    } else {
        Ok(())
    }
}

/// The vocabulary check: the number of records, header included, or the first refusal.
pub fn check_vocabulary(bytes: &[u8]) -> Result<usize, Refusal> {
    Paper.check(bytes)
}

/// The record call: the byte offset of a record, or the first refusal.
pub fn find_record(bytes: &[u8], number: u32) -> Result<usize, Refusal> {
    Paper.find(bytes, number)
}

/// Row 1: the length of the vocabulary.
pub fn check_length(bytes: &[u8]) -> Result<(), Refusal> {
    let length = bytes.len();
    let fits = (RECORD_BYTES..=MOST_RECORDS * RECORD_BYTES).contains(&length);
    refuse_if(!fits || !length.is_multiple_of(RECORD_BYTES), 1, 0)
}

/// Rows 3 to 7, tried at each record in turn.
pub fn check_records(records: &[Record]) -> Result<(), Refusal> {
    for place in 1..records.len() {
        for number in 3..=7 {
            refuse_if(applies(number, records, place), number, place)?;
        }
    }
    Ok(())
}

/// Rows 3 to 7: whether a row's condition applies to the record at a place.
pub fn applies(row: u8, records: &[Record], place: usize) -> bool {
    let record = at(records, place);
    let any = |purpose: Use, wrong: &dyn Fn(u16) -> bool| record.fields_for(purpose).any(wrong);
    match row {
        3 => uses(record.kind).is_none() || record.second != 0,
        4 => any(Use::Unused, &|field| field != 0),
        5 => any(Use::Term, &|field| !is_term_before(records, field, place)),
        6 => any(Use::Role, &|field| field >= at(records, 0).fields[B]),
        7 => any(Use::Label, &|field| is_label_before(records, field, place)),
        _ => false,
    }
}

/// Whether a number is that of a term before a place.
pub fn is_term_before(records: &[Record], number: u16, place: usize) -> bool {
    let number = usize::from(number);
    (1..place).contains(&number) && at(records, number).is_term()
}

/// Whether a label is that of a name before a place.
fn is_label_before(records: &[Record], label: u16, place: usize) -> bool {
    let mut before = records.iter().take(place).skip(1);
    before.any(|record| record.is_name() && record.fields[A] == label)
}

/// Row 8: the header's A, then every statement's next, in record order.
pub fn check_chains(records: &[Record]) -> Result<(), Refusal> {
    for (place, record) in records.iter().enumerate() {
        let next = match place {
            0 => record.fields[A],
            _ if record.is_statement() => record.fields[NEXT],
            _ => 0,
        };
        refuse_if(!may_follow(records, next, place), 8, place)?;
    }
    Ok(())
}

/// Whether a number ends a chain or is that of a statement after a place.
pub fn may_follow(records: &[Record], next: u16, place: usize) -> bool {
    let later = usize::from(next);
    let is_statement = records.get(later).is_some_and(Record::is_statement);
    next == 0 || (later > place && is_statement)
}

/// The numbers of the statements on the chain of an accepted vocabulary.
pub fn chain(records: &[Record]) -> Vec<u16> {
    let mut statements = Vec::new();
    let mut next = at(records, 0).fields[A];
    while next != 0 {
        statements.push(next);
        next = at(records, usize::from(next)).fields[NEXT];
    }
    statements
}
