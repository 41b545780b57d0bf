//! The expected output: a line for each case with the answer, what changed in the buffer, and two sums over all its
//! bytes.

use crate::lent::sums;
use crate::writer::call::{run, Outcome};
use crate::writer::file::Case;

/// The expected output for cases.
pub fn lines(cases: &[Case]) -> String {
    cases.iter().map(|case| line(case, &run(case))).collect()
}

/// The line of a case, with its line end.
pub fn line(case: &Case, outcome: &Outcome) -> String {
    let text = match &outcome.answer {
        Err(refusal) => format!("refused {} {}", refusal.number, refusal.place),
        Ok(length) => format!("length {length}"),
    };
    let changes = changes(&case.buffer(), &outcome.buffer);
    format!("{text} {changes} {}\n", sums(&outcome.buffer))
}

/// The bytes that changed: of each row of such bytes where it begins, and the bytes after the call in hexadecimal; a
/// dash where none did.
fn changes(before: &[u8], after: &[u8]) -> String {
    let mut rows: Vec<String> = Vec::new();
    let mut last = None;
    for (place, (_, byte)) in (0..).zip(before.iter().zip(after)).filter(|(_, (old, new))| old != new) {
        match rows.last_mut() {
            Some(row) if last == Some(place - 1) => *row += &format!("{byte:02x}"),
            _ => rows.push(format!("{place}:{byte:02x}")),
        }
        last = Some(place);
    }
    if rows.is_empty() {
        return "-".to_string();
    }
    rows.join(" ")
}
