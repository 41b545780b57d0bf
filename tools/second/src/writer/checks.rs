//! What the cases have to show before they are used: the lines for which they were made, buffers that change in nothing
//! but what the answer allows, and additions that can be read from them.

use crate::vocabulary::editions::{other, second};
use crate::vocabulary::records::{at, bytes, records, Record, EDITION_2, RECORD_BYTES};
use crate::vocabulary::{chain, check_vocabulary, Refusal};
use crate::writer::call::{write, Outcome};
use crate::writer::file::{Call, Case};
use crate::writer::plan::{call_of, Meant, Planned, Shown};
use crate::writer::print::line;
use crate::writer::rules::{link_place, Answer};

/// What is wrong with a case and its outcome, or nothing.
pub fn fault(planned: &Planned, outcome: &Outcome) -> Option<String> {
    let case = &planned.case;
    let line = line(case, outcome);
    match &planned.meant {
        Meant::Line(meant) if !line.starts_with(meant) => Some(format!("is {}, meant {meant}", line.trim_end())),
        Meant::Shows(meant) if shown(outcome).as_ref() != Some(meant) => {
            Some(format!("is {}, meant to show other additions", line.trim_end()))
        }
        _ => unsupported(case, outcome),
    }
}

/// What reading the buffer shows, where the call is not refused and the vocabulary is accepted: the edition, the roles,
/// then each record. Every statement has to be on the chain.
pub fn shown(outcome: &Outcome) -> Option<Shown> {
    let vocabulary = outcome.buffer.get(..outcome.answer.ok()?)?;
    check_vocabulary(vocabulary).ok()?;
    let all = records(vocabulary);
    let numbers = (0..).zip(&all).filter(|(_, record)| record.is_statement());
    let statements: Vec<u16> = numbers.map(|(number, _)| number).collect();
    (chain(&all) == statements).then(|| Shown {
        edition: at(&all, 0).second,
        roles: at(&all, 0).fields[1],
        additions: all.iter().skip(1).map(|record| call_of(*record)).collect(),
    })
}

/// What the bytes before and after the call have against an answer.
fn unsupported(case: &Case, outcome: &Outcome) -> Option<String> {
    let before = case.buffer();
    let problem = match (outcome.answer, case.call) {
        (Err(_), _) if outcome.buffer != before => Some("a refusal leaves other bytes"),
        (Err(refusal), Call::Make { roles }) => (!is_refused(&before, roles, refusal)).then_some("nothing is wrong"),
        (Ok(_), Call::Make { roles }) => unmade(&before, outcome, roles),
        (answer, _) => other_than_read(case, &before, answer)
            .or_else(|| badly_added(case, &before, outcome))
            .or_else(|| differs_by_edition(case, &before, outcome)),
    };
    problem.map(str::to_string)
}

/// Whether making is refused so.
fn is_refused(before: &[u8], roles: u32, refusal: Refusal) -> bool {
    let number = if before.len() < RECORD_BYTES { 27 } else { 2 };
    (number == 27 || roles > 64) && refusal == Refusal { number, place: 0 }
}

/// What is wrong with a vocabulary that was made.
fn unmade(before: &[u8], outcome: &Outcome, roles: u32) -> Option<&'static str> {
    let shows = shown(outcome).is_some_and(|shown| {
        shown.edition == EDITION_2 && u32::from(shown.roles) == roles && shown.additions.is_empty()
    });
    let behind = |buffer: &[u8]| buffer.get(RECORD_BYTES..).map(<[u8]>::to_vec);
    match outcome.answer {
        Ok(RECORD_BYTES) if shows && behind(&outcome.buffer) == behind(before) => None,
        _ => Some("what was made is no empty vocabulary of edition 2, or something behind it changed"),
    }
}

/// The vocabulary as it would be with the new record, where the bytes in use are accepted and there is room for it: as
/// many bytes as will be in use. A statement is reached by the first 0 along the chain; k is counted anew.
fn would_be(case: &Case, before: &[u8]) -> Option<Vec<u8>> {
    let used = usize::try_from(case.used).ok()?;
    let mut all = records(before.get(..used)?);
    let count = check_vocabulary(before.get(..used)?).ok()?;
    let (kind, a, b) = match case.call {
        Call::Term { kind, a, b } => (kind, a, b),
        Call::Statement { a, b } => (9, a, b),
        Call::Make { .. } => return None,
    };
    all.push(Record::new(kind, a, b, 0));
    let mut changed = bytes(&all);
    if at(&all, 0).second == EDITION_2 {
        changed = second(&changed);
    }
    if let Call::Statement { .. } = case.call {
        let mut place = link_place(0);
        while let Some([low, high]) = changed.get(place..place + 2) {
            let next = usize::from(u16::from_le_bytes([*low, *high]));
            if next == 0 {
                break;
            }
            place = link_place(next);
        }
        let link = (count as u16).to_le_bytes();
        changed
            .iter_mut()
            .skip(place)
            .zip(link)
            .for_each(|(old, new)| *old = new);
    }
    (changed.len() <= before.len()).then_some(changed)
}

/// What the reader has against an answer: it refuses the bytes in use with the same number and place, or what would be
/// in use with the new record; where it does neither, the record is added.
fn other_than_read(case: &Case, before: &[u8], answer: Answer) -> Option<&'static str> {
    let in_use = usize::try_from(case.used).ok().and_then(|used| before.get(..used));
    let count = match in_use.map(check_vocabulary) {
        None => return (answer != Err(Refusal { number: 1, place: 0 })).then_some("the length is past the buffer"),
        Some(Err(refusal)) => return (answer != Err(refusal)).then_some("the bytes in use are refused otherwise"),
        Some(Ok(count)) => count,
    };
    let Some(would_be) = would_be(case, before).filter(|_| count < 512) else {
        let refusal = Refusal {
            number: 27,
            place: count,
        };
        return (answer != Err(refusal)).then_some("there is no room");
    };
    let is_term = !matches!(case.call, Call::Term { kind, .. } if kind == 9);
    let read = if is_term {
        check_vocabulary(&would_be).map(|_| would_be.len())
    } else {
        Err(Refusal {
            number: 3,
            place: count,
        })
    };
    (answer != read).then_some("the reader says something else of the new record")
}

/// What is wrong with the bytes after an addition: those that will be in use are those of the vocabulary with the new
/// record, and the others stay.
fn badly_added(case: &Case, before: &[u8], outcome: &Outcome) -> Option<&'static str> {
    let length = outcome.answer.ok()?;
    let behind = |buffer: &[u8]| buffer.get(length..).map(<[u8]>::to_vec);
    let added = outcome.buffer.get(..length).map(<[u8]>::to_vec);
    if added.is_none() || added != would_be(case, before) || behind(&outcome.buffer) != behind(before) {
        return Some("the buffer is not that with the new record");
    }
    None
}

/// What the other edition of accepted bytes in use has against an outcome: the answer is the same, and so is what was
/// written but for the edition.
fn differs_by_edition(case: &Case, before: &[u8], outcome: &Outcome) -> Option<&'static str> {
    let (in_use, behind) = before.split_at_checked(usize::try_from(case.used).ok()?)?;
    check_vocabulary(in_use).ok()?;
    let mut buffer = [&other(in_use), behind].concat();
    let answer = write(&mut buffer, case.used, case.call);
    let length = outcome.answer.unwrap_or(in_use.len());
    let (written, rest) = outcome.buffer.split_at_checked(length)?;
    let same = answer == outcome.answer && buffer == [&other(written), rest].concat();
    (!same).then_some("the other edition is written otherwise")
}
