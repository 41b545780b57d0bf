//! The questions beside the survivors, on the stored comparisons.

#![allow(clippy::unwrap_used, clippy::indexing_slicing, clippy::panic)]

use super::{Questions, Within};
use crate::stored::comparison_cases;
use base::vocabulary::{Saying, Vocabulary};
use judge::Verdict;

/// The survivors of a vocabulary, with the truth of each record at them.
fn survivors(vocabulary: &[u8], term: u32) -> Vec<(u16, Vec<bool>)> {
    let mut bytes = [0; judge::SURVIVOR_BYTES];
    judge::compare(vocabulary, term, term, &mut bytes).unwrap();
    let records = Vocabulary::read(vocabulary);
    let survives = |element: &u16| bytes[usize::from(element / 8)] >> (element % 8) & 1 == 1;
    (0..4096)
        .filter(survives)
        .map(|element| (element, records.truths(element)))
        .collect()
}

#[test]
fn within_empty_and_contradictory_are_what_the_survivors_say() {
    let (mut within, mut outside, mut empty, mut contradictory) = (0, 0, 0, 0);
    for (vocabulary, a, b) in comparison_cases() {
        let vocabulary = vocabulary.as_slice();
        let mut questions = Questions::new(vocabulary);
        let answer = judge::compare(vocabulary, a, b, &mut [0; judge::SURVIVOR_BYTES]);
        let Ok(answer) = answer else {
            assert_eq!(questions.within(a, b).err(), answer.err());
            continue;
        };
        if answer.survivors > 64 {
            continue;
        }
        let all = survivors(vocabulary, a);
        let first = all.iter().find(|(_, truths)| truths[a as usize] && !truths[b as usize]);
        let Within::Answer(found) = questions.within(a, b).unwrap() else {
            continue;
        };
        match (found.verdict, first) {
            (Verdict::Equal, None) => within += 1,
            (Verdict::Different { element }, Some((first, _))) => {
                assert_eq!(element, *first);
                outside += 1;
            }
            (verdict, first) => panic!("{verdict:?}, {first:?}"),
        }
        let none = all.iter().all(|(_, truths)| !truths[a as usize]);
        assert_eq!(questions.is_empty(a).unwrap(), Some(none));
        assert_eq!(Questions::new(vocabulary).is_contradictory().unwrap(), all.is_empty());
        empty += usize::from(none);
        contradictory += usize::from(all.is_empty());
    }
    let least = [within, outside, empty, contradictory];
    assert!(
        least
            .iter()
            .zip([500, 500, 100, 20])
            .all(|(found, least)| *found > least),
        "{least:?}"
    );
}

/// A vocabulary of two names, filled up with copies of "c0 or c0", and with these records at its end.
fn full(records: usize, last: &[Saying]) -> Vec<u8> {
    let mut sayings = vec![Saying::Name(0), Saying::Name(1)];
    sayings.resize(records - 1 - last.len(), Saying::Or(1, 1));
    sayings.extend(last);
    let header = [16, 1, 0, 0, 0, 0, 0, 0].into_iter();
    header
        .chain(sayings.iter().flat_map(|saying| saying.record(0).bytes()))
        .collect()
}

#[test]
fn a_full_vocabulary_is_asked_by_a_record_that_says_it_or_not_at_all() {
    let questions = |vocabulary: &[u8]| {
        let mut questions = Questions::new(vocabulary);
        let verdict = match questions.within(1, 2).unwrap() {
            Within::Answer(answer) => Some(answer.verdict),
            Within::NoRoom => None,
        };
        (verdict, questions.is_empty(1).unwrap())
    };
    let different = Some(Verdict::Different { element: 1 });
    assert_eq!(questions(&full(511, &[])), (different, Some(false)));
    assert_eq!(questions(&full(512, &[])), (None, None));
    for says in [Saying::And(1, 2), Saying::And(2, 1), Saying::Or(1, 2), Saying::Or(2, 1)] {
        assert_eq!(questions(&full(512, &[says])), (different, None), "{says:?}");
    }
    assert_eq!(questions(&full(512, &[Saying::Bottom])), (None, Some(false)));
    let full = full(512, &[]);
    for (a, b) in [(2, 2), (1, 3)] {
        let equal = Questions::new(&full).within(a, b).unwrap();
        assert!(matches!(equal, Within::Answer(answer) if answer.verdict == Verdict::Equal));
    }
}

#[test]
fn numbers_that_are_no_terms_are_refused_as_in_a_comparison() {
    // Names 1 and 2, and a statement, 3; the record that is added would be 4.
    let vocabulary = [
        16, 1, 3, 0, 0, 0, 0, 0, 3, 0, 1, 0, 0, 0, 0, 0, 3, 0, 2, 0, 0, 0, 0, 0, 9, 0, 1, 0, 2, 0, 0, 0,
    ];
    for (a, b) in [
        (0, 1),
        (1, 0),
        (3, 1),
        (1, 3),
        (4, 1),
        (1, 4),
        (4, 4),
        (70_000, 1),
        (1, u32::MAX),
    ] {
        let mut questions = Questions::new(&vocabulary);
        let refusal = judge::compare(&vocabulary, a, b, &mut [0; judge::SURVIVOR_BYTES]).unwrap_err();
        assert_eq!(questions.within(a, b).unwrap_err(), refusal, "{a}, {b}");
        if a != 1 {
            assert_eq!(questions.is_empty(a).unwrap_err(), refusal);
        }
    }
    let answer = Questions::new(&vocabulary).within(1, 2).unwrap();
    assert!(matches!(answer, Within::Answer(answer) if answer.verdict == Verdict::Equal));
}
