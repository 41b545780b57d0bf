//! The ways in which a script meets each refusal of its form.

use crate::script::columns::{mentions, Argument};
use crate::script::form::unused;
use crate::script::records::{
    is_step, step, with, Script, Words, COLUMN, CONSTANT, CONSTANT_PLACE, EXTENSION, FUNCTION, INNER, KIND, OWNER,
    POSITION, REDUCTION, START, START_COLUMN, TERM, X, Y,
};
use crate::vocabulary::records::Record;

/// A record with a word changed to each value in turn.
fn each(record: Words, word: usize, values: &[u16]) -> Vec<Words> {
    values.iter().map(|value| with(record, word, *value)).collect()
}

/// All ways to change the record at a place so that it meets one of the refusals 15 to 18, and no
/// smaller of them.
pub fn ways(row: u8, script: &Script, place: usize) -> Vec<Words> {
    let record = script.record(place);
    match row {
        15 => each(record, KIND, &[0, 6, 7, 16, 32, 256 + record[KIND], 65535]),
        16 => {
            let words = unused(record[KIND]).iter();
            words.flat_map(|word| each(record, *word, &[1, 256, 65535])).collect()
        }
        17 => wrong_terms(script, place),
        18 if record[KIND] == START => each(record, START_COLUMN, &[2, 3, 256, 65535]),
        18 if record[KIND] == EXTENSION => wrong_extensions(script, place),
        _ => Vec::new(),
    }
}

/// Headers that meet refusal 14.
pub fn wrong_headers(header: Words) -> Vec<Words> {
    let mut wrong = each(header, KIND, &[0, 1, 16, 31, 33, 8192, 256 + 32, 65535]);
    for word in 4..8 {
        wrong.extend(each(header, word, &[1, 256, 65535]));
    }
    wrong
}

/// Record 1 as something else, another record as the constant, or a term record with a function, an
/// inner term or both that may not stand.
fn wrong_terms(script: &Script, place: usize) -> Vec<Words> {
    let record = script.record(place);
    if place == usize::from(CONSTANT_PLACE) {
        let kinds = [TERM, START, EXTENSION, REDUCTION];
        // A start with w1 = 2 and the extension meet 18 too, which comes later.
        let others = kinds.iter().map(|kind| step(*kind, &[2]));
        return others.chain([step(START, &[0])]).collect();
    }
    let mut wrong = vec![step(CONSTANT, &[])];
    if record[KIND] == TERM {
        wrong.extend(each(record, FUNCTION, &no_functions(script)));
        wrong.extend(each(record, INNER, &no_terms_before(script, place)));
    }
    wrong
}

/// The records that a term record may repeat.
pub fn repeats(script: &Script, place: usize) -> Vec<Words> {
    let before = if script.word(place, KIND) == TERM { place } else { 0 };
    let earlier = script.records.iter().take(before).skip(1);
    earlier.filter(|r| r[KIND] == TERM).copied().collect()
}

/// The numbers of the vocabulary's records for which a test holds.
fn numbers(script: &Script, test: impl Fn(u16, &Record) -> bool) -> Vec<u16> {
    let all = (0..).zip(&script.matrix.records);
    all.filter(|(number, record)| test(*number, record))
        .map(|(number, _)| number)
        .collect()
}

/// Numbers that are no record of kinds 7 and 8: past the end, and up to four of other records.
fn no_functions(script: &Script) -> Vec<u16> {
    let count = script.matrix.records.len() as u16;
    let others = numbers(script, |_, r| r.kind != 7 && r.kind != 8);
    let some = others.iter().step_by(1 + others.len() / 4).copied();
    some.chain([count, 65535]).collect()
}

/// Numbers that are no term record before a place: the header, its own, later terms, a step before
/// it, numbers past the end, and a term's with a high byte too many.
fn no_terms_before(script: &Script, place: usize) -> Vec<u16> {
    let count = script.records.len();
    let is_term = |p: &usize| [CONSTANT, TERM].contains(&script.word(*p, KIND));
    let step_before = (1..place).rfind(|p| is_step(script.word(*p, KIND)));
    let term_after = (place + 1..count).find(is_term);
    let mut wrong = vec![0, place as u16, count as u16, 65535];
    wrong.extend(step_before.map(|p| p as u16));
    wrong.extend(term_after.map(|p| p as u16));
    if count < 256 {
        wrong.push(256 + CONSTANT_PLACE);
    }
    wrong
}

/// An extension with an owner, a column, a position or terms that may not stand.
fn wrong_extensions(script: &Script, place: usize) -> Vec<Words> {
    let record = script.record(place);
    let matrix = &script.matrix;
    let columns = matrix.columns(record[OWNER]);
    let Some(column) = columns.get(usize::from(record[COLUMN])) else {
        return Vec::new();
    };
    let (width, height) = (columns.len() as u16, column.len() as u16);
    let count = matrix.records.len() as u16;
    let no_terms = no_terms_before(script, place);
    let mut wrong = each(record, OWNER, &[count, count + 1, 65535]);
    for owner in numbers(script, |n, _| matrix.columns(n).is_empty()) {
        // A name, or a statement off the chain.
        wrong.push(with(with(record, OWNER, owner), COLUMN, 0));
    }
    wrong.extend(each(record, COLUMN, &[width, width + 1, 256 + record[COLUMN], 65535]));
    wrong.extend(each(record, POSITION, &[height, height + 1, 256, 65535]));
    wrong.extend(each(record, X, &no_terms));
    if mentions(column, Argument::Y) {
        wrong.extend(each(record, Y, &no_terms));
    } else {
        wrong.extend(each(record, Y, &[1, place as u16, 256, 65535]));
    }
    let other = (2..place).find(|p| script.word(*p, KIND) == TERM);
    if let (0, Some(term)) = (record[OWNER], other) {
        wrong.push(with(record, X, term as u16));
    }
    wrong
}

/// Numbers that may not stand as the next of a holder (0: the header's w3): its own, the constant,
/// a step before it, a later term, numbers past the end, and a later step's with a high byte.
pub fn wrong_nexts(script: &Script, holder: usize) -> Vec<u16> {
    let count = script.records.len();
    let kind = |p: &usize| script.word(*p, KIND);
    let before = (1..holder).rfind(|p| is_step(kind(p)));
    let term = (holder + 1..count).find(|p| !is_step(kind(p)));
    let step = (holder + 1..count).rfind(|p| is_step(kind(p)));
    let mut wrong = vec![CONSTANT_PLACE, count as u16, count as u16 + 1, 65535];
    wrong.extend([before, term].into_iter().flatten().map(|p| p as u16));
    if holder > 0 {
        wrong.push(holder as u16);
    }
    if let (Some(step), true) = (step, count < 256) {
        wrong.push(256 + step as u16);
    }
    wrong
}
