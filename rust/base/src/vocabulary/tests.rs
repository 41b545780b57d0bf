//! What `compare` explains, on the stored comparisons: the truth of terms at an element.

#![allow(clippy::unwrap_used, clippy::indexing_slicing)]

use super::{Saying, Vocabulary};
use judge::{Edition, Verdict};

/// A stored comparison: the vocabulary, A and B.
type Case = (&'static [u8], u32, u32);

/// The cases of crates/comparison_cases.
fn cases() -> Vec<Case> {
    let mut rest: &[u8] = include_bytes!("../../../../crates/comparison_cases/stdin");
    let mut cases = Vec::new();
    while let [l0, l1, a0, a1, a2, a3, b0, b1, b2, b3, _, _, _, after @ ..] = rest {
        let (vocabulary, after) = after.split_at(u16::from_le_bytes([*l0, *l1]).into());
        let a = u32::from_le_bytes([*a0, *a1, *a2, *a3]);
        let b = u32::from_le_bytes([*b0, *b1, *b2, *b3]);
        cases.push((vocabulary, a, b));
        rest = after;
    }
    cases
}

#[test]
fn the_element_belongs_to_just_one_term_and_is_the_first_that_does() {
    let (mut different, mut elements) = (0, 0);
    for (bytes, a, b) in cases() {
        let mut survivors = [0; judge::SURVIVOR_BYTES];
        let Ok(answer) = judge::compare(bytes, a, b, &mut survivors) else {
            continue;
        };
        let vocabulary = Vocabulary::read(bytes);
        let chained = vocabulary.chained();
        let mut first = None;
        let survives = |element: &u16| survivors[usize::from(element / 8)] >> (element % 8) & 1 == 1;
        // Each survivor of a small vocabulary, and the first of a large one.
        for element in (0..4096).filter(survives).take(256) {
            let truths = vocabulary.truths(element);
            elements += 1;
            assert!(truths.iter().zip(&chained).all(|(truth, on)| *truth || !on));
            if first.is_none() && truths[a as usize] != truths[b as usize] {
                first = Some(element);
            }
        }
        match answer.verdict {
            Verdict::Equal => assert_eq!(first, None),
            Verdict::Different { element } => {
                different += 1;
                let truths = vocabulary.truths(element);
                assert_ne!(truths[a as usize], truths[b as usize]);
                assert!(first.is_none_or(|first| first == element));
            }
        }
    }
    assert_eq!((cases().len(), different, elements), (5_561, 2_423, 94_802));
}

#[test]
fn records_with_a_form_come_back_from_what_they_say() {
    for (bytes, ..) in cases() {
        for (_, record) in Vocabulary::read(bytes).numbered() {
            assert_eq!(super::Record::read(&record.bytes()), record);
            if let Some(saying) = record.saying() {
                assert_eq!(saying.record(record.next), record);
                assert_eq!(matches!(saying, Saying::Within(..)), !record.is_term());
            }
        }
    }
}

#[test]
fn bytes_terms_and_statements_are_those_of_the_records() {
    let (mut accepted, mut statements) = (0, 0);
    for (bytes, ..) in cases() {
        let vocabulary = Vocabulary::read(bytes);
        assert_eq!(vocabulary.bytes(), &bytes[..bytes.len() / 8 * 8]);
        if judge::check_vocabulary(bytes).is_err() {
            continue;
        }
        accepted += 1;
        // Each record of an accepted vocabulary says something, and its operands are terms before it.
        assert_eq!(vocabulary.sayings().count() + 1, vocabulary.records.len());
        let terms = vocabulary.terms();
        for (number, saying) in vocabulary.sayings() {
            assert_eq!(terms.contains(&number), !matches!(saying, Saying::Within(..)));
            assert!(saying.operands().iter().all(|a| *a < number && terms.contains(a)));
        }
        let (mut link, mut chained) = (vocabulary.get(0).a, Vec::new());
        while link != 0 {
            let statement = vocabulary.get(link.into());
            chained.push((statement.a, statement.b));
            link = statement.next;
        }
        assert_eq!(vocabulary.statements(), chained);
        statements += chained.len();
    }
    assert_eq!((accepted, statements), (4_500, 6_044));
    for edition in [Edition::One, Edition::Two] {
        let header = super::Record::header(edition, 258).bytes();
        assert_eq!(header, [16, edition.number(), 0, 0, 2, 1, 0, 0]);
    }
}

#[test]
fn a_copy_has_the_chosen_statements_on_the_chain_and_is_accepted() {
    let (mut copies, mut fewer) = (0, 0);
    for (bytes, ..) in cases() {
        if judge::check_vocabulary(bytes).is_err() {
            continue;
        }
        let vocabulary = Vocabulary::read(bytes);
        let statements = vocabulary.numbers_of(|record| record.kind == super::STATEMENT_KIND);
        // Every second one, from the first or the second on; all; none.
        for (first, step) in [(0, 2), (1, 2), (0, 1), (statements.len(), 1)] {
            let chosen: Vec<u16> = statements.iter().copied().skip(first).step_by(step).collect();
            let copy = vocabulary.with_chain(&chosen);
            assert_eq!(judge::check_vocabulary(&copy.bytes()), judge::check_vocabulary(bytes));
            let chained = (0..).zip(copy.chained()).filter(|(_, on)| *on);
            assert_eq!(chained.map(|(number, _)| number).collect::<Vec<u16>>(), chosen);
            for (number, (new, old)) in copy.records.iter().zip(&vocabulary.records).enumerate() {
                let is_on = chosen.contains(&(number as u16));
                let (a, next) = (
                    new.a,
                    if old.kind == super::STATEMENT_KIND {
                        new.next
                    } else {
                        old.next
                    },
                );
                assert!(is_on || old.kind != super::STATEMENT_KIND || next == 0);
                let a = if number == 0 { a } else { old.a };
                assert_eq!(*new, super::Record { a, next, ..*old });
            }
            copies += 1;
            fewer += usize::from(chosen.len() < statements.len());
        }
    }
    assert_eq!(copies, 4 * 4_500);
    assert!(fewer > 4_000, "{fewer}");
}
