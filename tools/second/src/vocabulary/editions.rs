//! Vocabularies in either edition, and numbers that are not k.

use crate::vocabulary::call::check_vocabulary;
use crate::vocabulary::faults::with;
use crate::vocabulary::records::{bytes, records, Record, EDITION_1, EDITION_2, NEXT, RECORD_BYTES};

/// Where a header's second byte stands.
const SECOND: usize = 1;

/// The number of atoms, k.
pub fn count(records: &[Record]) -> usize {
    records.iter().skip(1).filter(|record| record.is_atom()).count()
}

/// The vocabulary with another second byte and another next of its header.
pub fn with_header(vocabulary: &[u8], second: u8, next: u16) -> Vec<u8> {
    let mut all = records(vocabulary);
    if let Some(header) = all.first_mut() {
        *header = with(Record { second, ..*header }, NEXT, next);
    }
    let rest = vocabulary.iter().skip(RECORD_BYTES * all.len());
    bytes(&all).iter().chain(rest).copied().collect()
}

/// The vocabulary in edition 1.
pub fn first(vocabulary: &[u8]) -> Vec<u8> {
    with_header(vocabulary, EDITION_1, 0)
}

/// The vocabulary in edition 2, with the k that it has.
pub fn second(vocabulary: &[u8]) -> Vec<u8> {
    holding(vocabulary, count(&records(vocabulary)) as u16)
}

/// The vocabulary in edition 2, holding a number for k.
pub fn holding(vocabulary: &[u8], held: u16) -> Vec<u8> {
    with_header(vocabulary, EDITION_2, held)
}

/// Whether a header is of edition 2.
pub fn is_second(vocabulary: &[u8]) -> bool {
    vocabulary.get(SECOND) == Some(&EDITION_2)
}

/// The vocabulary in the edition that it is not in.
pub fn other(vocabulary: &[u8]) -> Vec<u8> {
    if is_second(vocabulary) {
        first(vocabulary)
    } else {
        second(vocabulary)
    }
}

/// What the other edition has against the line of a case, where the vocabulary is accepted and has at most so many atoms, or
/// the line is a refusal. `line_with` is the line of the case with another vocabulary.
pub fn differs_by_edition(
    vocabulary: &[u8],
    line: &str,
    most_atoms: usize,
    line_with: impl FnOnce(Vec<u8>) -> String,
) -> Option<String> {
    let few = count(&records(vocabulary)) <= most_atoms;
    if check_vocabulary(vocabulary).is_err() || !(few || line.starts_with("refused")) {
        return None;
    }
    let same = line_with(other(vocabulary)) == line;
    (!same).then(|| "is another answer in the other edition".to_string())
}

/// Numbers that a header may hold and that are not k: next to it, with another byte or both bytes exchanged, counts of
/// other records, and counts that leave out a kind of atom or take one of them alone.
pub fn wrong_counts(records: &[Record]) -> Vec<u16> {
    let of = |kinds: &[u8]| records.iter().filter(|record| kinds.contains(&record.kind)).count() as u16;
    let k = count(records) as u16;
    let all = records.len() as u16;
    let near = [
        k.wrapping_sub(1),
        k + 1,
        0,
        u16::MAX,
        k + 256,
        k ^ 0x0100,
        k ^ 0x8000,
        k.swap_bytes(),
    ];
    let counts = [
        all,
        all - 1,
        of(&[1, 2, 3, 4, 5, 6, 7, 8]),
        of(&[3]),
        of(&[3, 7]),
        of(&[3, 8]),
        of(&[7, 8]),
        of(&[9]),
    ];
    let mut numbers = Vec::new();
    for number in near.into_iter().chain(counts) {
        if number != k && !numbers.contains(&number) {
            numbers.push(number);
        }
    }
    numbers
}
