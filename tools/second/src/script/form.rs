//! The form of a script: rows 13, 14, 10 and 15 to 19 of the table.

use crate::script::columns::{mentions, Argument};
use crate::script::records::{
    is_step, Script, COLUMN, CONSTANT, CONSTANT_PLACE, EXTENSION, FIRST, FUNCTION, HEADER, INNER, KIND, MOST_RECORDS,
    NEXT, OWNER, POSITION, RECORD_BYTES, REDUCTION, START, START_COLUMN, TERM, X, Y,
};
use crate::script::rules::Rules;
use crate::vocabulary::records::Record;
use crate::vocabulary::{refuse_if, Refusal};

/// Row 13: the length of the script.
pub fn check_length(bytes: &[u8]) -> Result<(), Refusal> {
    let length = bytes.len();
    let fits = (RECORD_BYTES..=MOST_RECORDS * RECORD_BYTES).contains(&length);
    refuse_if(!fits || !length.is_multiple_of(RECORD_BYTES), 13, 0)
}

/// Rows 14, 10, 15 to 18 record by record, and 19.
pub fn check_form<R: Rules + ?Sized>(rules: &R, script: &Script) -> Result<(), Refusal> {
    check_header(script)?;
    check_query(script)?;
    check_records(rules, script)?;
    check_links(script)
}

/// Row 14: the header's w0, and w4 to w7.
pub fn check_header(script: &Script) -> Result<(), Refusal> {
    let [kind, _, _, _, unused @ ..] = script.record(0);
    refuse_if(kind != HEADER || unused != [0; 4], 14, 0)
}

/// Row 10: the query's A, then its B.
pub fn check_query(script: &Script) -> Result<(), Refusal> {
    for number in script.matrix.query.map(usize::from) {
        let record = script.matrix.records.get(number);
        refuse_if(!record.is_some_and(Record::is_term), 10, number)?;
    }
    Ok(())
}

/// Rows 15 to 18, tried at each record in turn.
pub fn check_records<R: Rules + ?Sized>(rules: &R, script: &Script) -> Result<(), Refusal> {
    let absent = script.records.len() <= usize::from(CONSTANT_PLACE);
    refuse_if(absent, 17, CONSTANT_PLACE.into())?;
    for place in 1..script.records.len() {
        for row in 15..=18 {
            refuse_if(rules.applies(row, script, place), row, place)?;
        }
    }
    Ok(())
}

/// Rows 15 to 18: whether a row's condition applies to the record at a place.
pub fn applies(row: u8, script: &Script, place: usize) -> bool {
    let record = script.record(place);
    match row {
        15 => !(CONSTANT..=REDUCTION).contains(&record[KIND]),
        16 => unused(record[KIND]).iter().any(|word| script.word(place, *word) != 0),
        17 => !keeps_term_rule(script, place),
        18 => !keeps_step_rule(script, place),
        _ => false,
    }
}

/// The words that records of a kind do not use. Row 18 has the w4 of an extension without y.
pub fn unused(kind: u16) -> &'static [usize] {
    match kind {
        CONSTANT => &[1, 2, 3, 4, 5, 6, 7],
        TERM => &[3, 4, 5, 6, 7],
        START | REDUCTION => &[2, 3, 4, 5, 6],
        EXTENSION => &[6],
        _ => &[],
    }
}

/// Row 17: record 1 and no other is the constant; a term applies the function of a restriction to
/// an earlier term record, and may repeat an earlier one.
fn keeps_term_rule(script: &Script, place: usize) -> bool {
    let record = script.record(place);
    let is_constant = record[KIND] == CONSTANT;
    let is_place = place == usize::from(CONSTANT_PLACE);
    let formed = || is_restriction(script, record[FUNCTION]) && is_term_before(script, record[INNER], place);
    is_constant == is_place && (record[KIND] != TERM || formed())
}

/// Whether a vocabulary record has a function: kinds 7 and 8.
fn is_restriction(script: &Script, number: u16) -> bool {
    let record = script.matrix.records.get(usize::from(number));
    record.is_some_and(|r| r.kind == 7 || r.kind == 8)
}

/// Whether a number is that of a term record before a place.
pub fn is_term_before(script: &Script, number: u16, place: usize) -> bool {
    let number = usize::from(number);
    (1..place).contains(&number) && [CONSTANT, TERM].contains(&script.word(number, KIND))
}

/// Row 18: a start's column is 0 or 1; an extension's column and position exist, and its terms
/// stand before it.
fn keeps_step_rule(script: &Script, place: usize) -> bool {
    let record = script.record(place);
    match record[KIND] {
        START => record[START_COLUMN] <= 1,
        EXTENSION => keeps_extension_rule(script, place),
        _ => true,
    }
}

/// Row 18 for an extension.
fn keeps_extension_rule(script: &Script, place: usize) -> bool {
    let record = script.record(place);
    let columns = script.matrix.columns(record[OWNER]);
    let Some(column) = columns.get(usize::from(record[COLUMN])) else {
        return false;
    };
    let keeps_y = if mentions(column, Argument::Y) {
        is_term_before(script, record[Y], place)
    } else {
        record[Y] == 0
    };
    usize::from(record[POSITION]) < column.len()
        && is_term_before(script, record[X], place)
        && (record[OWNER] != 0 || record[X] == CONSTANT_PLACE)
        && keeps_y
}

/// Row 19: the header's w3, then every step's next, in record order.
fn check_links(script: &Script) -> Result<(), Refusal> {
    for (place, record) in script.records.iter().enumerate() {
        let next = match place {
            0 => record[FIRST],
            _ if is_step(record[KIND]) => record[NEXT],
            _ => 0,
        };
        refuse_if(!may_follow(script, next, place), 19, place)?;
    }
    Ok(())
}

/// Whether a number ends the chain or is that of a step after a place.
pub fn may_follow(script: &Script, next: u16, place: usize) -> bool {
    let later = usize::from(next);
    let leads_to_step = || {
        let record = script.records.get(later);
        record.is_some_and(|r| is_step(r[KIND]))
    };
    next == 0 || (later > place && leads_to_step())
}
