//! The ways in which a vocabulary meets each refusal.

use crate::random::Random;
use crate::vocabulary::call::{is_term_before, may_follow};
use crate::vocabulary::draft::Draft;
use crate::vocabulary::records::{uses, Record, Use, A, B, NEXT};

/// Headers that meet refusal 2, but for the one of edition 2: it was refused when there was no such edition, and the
/// cases that are drawn from this list are to stay.
pub fn wrong_headers(roles: u16) -> Vec<Record> {
    let good = Record::header(roles);
    let mut wrong = Vec::new();
    for kind in [0, 1, 9, 15, 17, 32, 255] {
        wrong.push(Record { kind, ..good });
    }
    for second in [0, 2, 16, 255] {
        wrong.push(Record { second, ..good });
    }
    for count in [65, 66, 255, 256, 257, 16384, 65535] {
        wrong.push(with(good, B, count));
    }
    for next in [1, 2, 255, 256, 65535] {
        wrong.push(with(good, NEXT, next));
    }
    wrong
}

/// The record with a field changed.
pub fn with(record: Record, field: usize, value: u16) -> Record {
    let mut changed = record;
    if let Some(old) = changed.fields.get_mut(field) {
        *old = value;
    }
    changed
}

/// All ways to change a record, to be pushed next, so that it meets one of the refusals 3 to 7.
/// The vocabulary is to have `count` records.
pub fn ways(number: u8, record: Record, draft: &Draft, count: usize) -> Vec<Record> {
    match number {
        3 => wrong_starts(record),
        4 => change(record, Use::Unused, &[1, 2, 256, 65535]),
        5 => change(record, Use::Term, &wrong_terms(draft, count)),
        6 => change(record, Use::Role, &wrong_roles(draft)),
        7 => change(record, Use::Label, &taken_labels(draft)),
        _ => Vec::new(),
    }
}

/// One such way at random, or nothing where there is none.
pub fn way(number: u8, record: Record, draft: &Draft, count: usize, random: &mut Random) -> Option<Record> {
    random.pick(&ways(number, record, draft, count))
}

/// Pushes a record that meets one of the refusals 3 to 7.
pub fn push_fault(number: u8, draft: &mut Draft, count: usize, random: &mut Random) {
    let kinds: &[u8] = match number {
        4 => &[1, 2, 3, 4, 5, 6, 7, 8],
        5 => &[4, 5, 6, 7, 8, 9],
        6 => &[7, 8],
        7 => &[3],
        _ => &[1, 2, 3, 4, 5, 6, 7, 8, 9],
    };
    let kind = random.pick(kinds).unwrap_or(1);
    let record = draft.valid(kind, random);
    let wrong = record.and_then(|r| way(number, r, draft, count, random));
    draft.records.extend(wrong);
}

/// The record with each field of a purpose changed to each value in turn.
fn change(record: Record, purpose: Use, values: &[u16]) -> Vec<Record> {
    let uses = uses(record.kind).into_iter().flatten().enumerate();
    let fields = uses.filter(|(_, used)| *used == purpose).map(|(field, _)| field);
    fields
        .flat_map(|field| values.iter().map(move |value| with(record, field, *value)))
        .collect()
}

/// The record with a kind or a second byte that meets refusal 3.
fn wrong_starts(record: Record) -> Vec<Record> {
    let kinds = [0, 10, 11, 16, 32, 128 + record.kind, 255];
    let seconds = [1, 2, 16, 128, 255];
    let by_kind = kinds.map(|kind| Record { kind, ..record });
    let by_second = seconds.map(|second| Record { second, ..record });
    by_kind.into_iter().chain(by_second).collect()
}

/// Numbers that are no term before the record to be pushed next: the header, its own, later ones,
/// numbers past the end, statements, and terms with a high byte too many.
fn wrong_terms(draft: &Draft, count: usize) -> Vec<u16> {
    let own = draft.records.len();
    let mut numbers = vec![0, own as u16, own as u16 + 1, count as u16 - 1, count as u16, 65535];
    let statements = draft.statements();
    numbers.extend(statements.first());
    numbers.extend(statements.last());
    numbers.extend(draft.terms().last().map(|term| term + 256));
    numbers.retain(|number| !is_term_before(&draft.records, *number, own));
    distinct(numbers)
}

/// Numbers that are no role.
fn wrong_roles(draft: &Draft) -> Vec<u16> {
    let roles = draft.roles();
    distinct(vec![roles, roles + 1, 256, 65535])
}

/// The labels of the first, a middle and the last name.
fn taken_labels(draft: &Draft) -> Vec<u16> {
    let labels = draft.labels();
    let middle = labels.get(labels.len() / 2);
    distinct(
        [labels.first(), middle, labels.last()]
            .into_iter()
            .flatten()
            .copied()
            .collect(),
    )
}

/// Numbers that may not stand as the next of a holder (0: the header's A): its own, those of
/// earlier and later records that are no later statement, and numbers past the end.
pub fn wrong_nexts(draft: &Draft, holder: usize) -> Vec<u16> {
    let count = draft.records.len() as u16;
    let mut numbers = vec![holder as u16, 1, count - 1, count, count + 1, 65535];
    for list in [draft.terms(), draft.statements()] {
        let later = list.iter().copied().find(|number| usize::from(*number) > holder);
        numbers.extend(list.iter().copied().rfind(|number| usize::from(*number) < holder));
        numbers.extend(later);
        numbers.extend(later.map(|number| number + 256));
    }
    numbers.retain(|number| !may_follow(&draft.records, *number, holder));
    distinct(numbers)
}

/// The numbers that may stand as the next of a holder: 0, and every later statement.
pub fn right_nexts(draft: &Draft, holder: usize) -> Vec<u16> {
    let mut numbers = draft.statements();
    numbers.retain(|number| usize::from(*number) > holder);
    numbers.insert(0, 0);
    numbers
}

/// Names whose labels are A of records of other kinds, or differ from a name's label in one byte
/// alone: they meet no refusal.
pub fn near_labels(draft: &Draft) -> Vec<Record> {
    let taken = draft.labels();
    let others = draft.records.iter().filter(|record| !record.is_name());
    let mut labels: Vec<u16> = others.flat_map(|record| record.fields).collect();
    for label in &taken {
        labels.extend([label ^ 1, label ^ 256, label.swap_bytes(), label ^ 0x8000]);
    }
    labels.retain(|label| !taken.contains(label));
    distinct(labels)
        .into_iter()
        .map(|label| with(Record::new(3, 0, 0, 0), A, label))
        .collect()
}

/// Numbers without repeats, in their order.
fn distinct(numbers: Vec<u16>) -> Vec<u16> {
    let mut seen = Vec::new();
    for number in numbers {
        if !seen.contains(&number) {
            seen.push(number);
        }
    }
    seen
}
