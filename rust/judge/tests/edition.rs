//! The two editions of the header: the number of atoms, conversion, refusal 28 in every call, and answers that do not hang on
//! the edition.

#![allow(clippy::unwrap_used, clippy::indexing_slicing)]

mod support;

use judge::{Edition, Refusal, Rule};
use std::collections::BTreeSet;
use support::Cases;

/// A filed vocabulary of edition 1, and the same of edition 2.
const V: &[u8] = include_bytes!("../../../examples/v.vocabulary");
const V2: &[u8] = include_bytes!("../../../examples/v2.vocabulary");
const SCRIPT: &[u8] = include_bytes!("../../../examples/four-within-three.script");

/// The vocabularies of the stored vocabulary cases, each once.
fn stored() -> BTreeSet<&'static [u8]> {
    let mut cases = Cases(include_bytes!("../../../crates/vocabulary_cases/stdin"));
    let mut all = BTreeSet::new();
    while !cases.0.is_empty() {
        let length = cases.number(2) as usize;
        cases.take(4);
        all.insert(cases.take(length));
    }
    all
}

/// How many records are of an atom's kind.
fn count(vocabulary: &[u8]) -> u16 {
    let records = vocabulary.chunks(8).skip(1);
    records.filter(|record| matches!(record[0], 3 | 7 | 8)).count() as u16
}

fn converted(vocabulary: &[u8], edition: Edition) -> Result<Vec<u8>, Refusal> {
    let mut copy = vocabulary.to_vec();
    judge::set_edition(&mut copy, edition)?;
    Ok(copy)
}

/// A refusal's number and place.
fn told<T>(answer: Result<T, Refusal>) -> Option<(u8, u32)> {
    answer.err().map(|refusal| (refusal.rule.number(), refusal.place))
}

#[test]
fn an_edition_has_a_number() {
    for number in 0..=255 {
        let edition = Edition::of(number);
        assert_eq!(
            edition.map(Edition::number),
            Some(number).filter(|number| matches!(number, 1 | 2))
        );
    }
}

#[test]
fn the_two_editions_of_a_filed_vocabulary() {
    assert_eq!([V, V2].map(judge::edition), [Ok(Edition::One), Ok(Edition::Two)]);
    assert_eq!([V, V2].map(judge::atoms), [Ok(3), Ok(3)]);
    for from in [V, V2] {
        assert_eq!(converted(from, Edition::One).unwrap(), V);
        assert_eq!(converted(from, Edition::Two).unwrap(), V2);
    }
}

#[test]
fn stored_vocabularies_have_the_atoms_of_their_records_in_both_editions() {
    let (mut accepted, mut refused) = (0, 0);
    for vocabulary in stored() {
        if let Err(refusal) = judge::check_vocabulary(vocabulary) {
            refused += 1;
            assert_eq!(judge::atoms(vocabulary), Err(refusal));
            assert_eq!(judge::edition(vocabulary), Err(refusal));
            let mut copy = vocabulary.to_vec();
            assert_eq!(judge::set_edition(&mut copy, Edition::Two), Err(refusal));
            assert_eq!(copy, vocabulary);
            continue;
        }
        accepted += 1;
        let (one, two) = (
            converted(vocabulary, Edition::One).unwrap(),
            converted(vocabulary, Edition::Two).unwrap(),
        );
        let [low, high] = count(vocabulary).to_le_bytes();
        assert_eq!([one[1], one[6], one[7]], [1, 0, 0]);
        assert_eq!([two[1], two[6], two[7]], [2, low, high]);
        for same in [&one, &two] {
            assert_eq!(judge::check_vocabulary(same), judge::check_vocabulary(vocabulary));
            assert_eq!(judge::atoms(same), Ok(count(vocabulary)));
            assert_eq!((&same[2..6], &same[8..]), (&vocabulary[2..6], &vocabulary[8..]));
        }
        assert_eq!(converted(&two, Edition::One).unwrap(), one);
    }
    assert!(accepted > 500 && refused > 1_000, "{accepted} {refused}");
}

#[test]
fn the_most_atoms_are_counted() {
    let mut terms = judge::Builder::new(0).unwrap();
    for label in 1..=511 {
        terms.name(label).unwrap();
        assert_eq!(judge::atoms(terms.as_bytes()), Ok(label));
    }
    terms.set_edition(Edition::One).unwrap();
    assert_eq!(judge::atoms(terms.as_bytes()), Ok(511));
    assert_eq!(judge::edition(terms.as_bytes()), Ok(Edition::One));
}

/// Every number but the true one is refused, with the true one as place.
#[test]
fn a_wrong_number_of_atoms_is_refused() {
    for atoms in 0..=u16::MAX {
        let mut vocabulary = V2.to_vec();
        vocabulary[6..8].copy_from_slice(&atoms.to_le_bytes());
        let wanted = if atoms == 3 { None } else { Some((28, 3)) };
        assert_eq!(told(judge::check_vocabulary(&vocabulary)), wanted, "{atoms}");
        // Edition 1 has none.
        vocabulary[1] = 1;
        let wanted = if atoms == 0 { None } else { Some((2, 0)) };
        assert_eq!(told(judge::check_vocabulary(&vocabulary)), wanted, "{atoms}");
    }
}

/// 28 comes after 1 to 8 and before all else, in every call but the record call, whatever else is wrong.
#[test]
fn every_call_that_checks_a_vocabulary_refuses_a_wrong_number() {
    let mut wrong = V2.to_vec();
    wrong[6] = 4;
    let expected = Some((28, 3));
    assert_eq!(told(judge::check_vocabulary(&wrong)), expected);
    assert_eq!(told(judge::compare(&wrong, 0, 70_000, &mut [])), expected);
    assert_eq!(told(judge::classify(&wrong, &mut [], &mut [])), expected);
    assert_eq!(told(judge::check_script(&wrong, &[])), expected);
    assert_eq!(told(judge::check_script(&wrong, SCRIPT)), expected);
    for buffer in [&mut wrong.clone()[..], &mut [&wrong[..], &[0; 8]].concat()] {
        let before = buffer.to_vec();
        assert_eq!(told(judge::add_term(buffer, V.len(), 9, 0, 0)), expected);
        assert_eq!(told(judge::add_statement(buffer, V.len(), 0, 0)), expected);
        assert_eq!(buffer, before);
    }
    assert_eq!(told(judge::Builder::resume(wrong.clone(), V.len())), expected);
    assert_eq!(judge::atoms(&wrong).unwrap_err().rule, Rule::AtomCount);
    assert_eq!(judge::record(&wrong, 0), Ok(&wrong[..8]));
    // 8, at the last statement, comes first.
    wrong[46] = 5;
    assert_eq!(told(judge::check_vocabulary(&wrong)), Some((8, 5)));
}

#[test]
fn comparisons_and_classifications_are_the_same_in_both_editions() {
    let mut cases = Cases(include_bytes!("../../../crates/comparison_cases/stdin"));
    let mut answered = 0;
    while !cases.0.is_empty() {
        let (length, a, b) = (cases.number(2), cases.number(4), cases.number(4));
        cases.take(3);
        let vocabulary = cases.take(length as usize);
        let [Ok(one), Ok(two)] = [Edition::One, Edition::Two].map(|edition| converted(vocabulary, edition)) else {
            continue;
        };
        let all = |bytes: &[u8]| {
            let (mut compared, mut classified, mut taxonomy) = ([7; 600], [7; 600], [7; 200]);
            let answers = (
                judge::compare(bytes, a, b, &mut compared),
                judge::classify(bytes, &mut classified, &mut taxonomy),
            );
            (answers, compared, classified, taxonomy)
        };
        assert_eq!(all(&one), all(&two));
        answered += 1;
    }
    assert!(answered > 3_000, "{answered}");
}

#[test]
fn scripts_are_judged_the_same_in_both_editions() {
    let mut cases = Cases(include_bytes!("../../../crates/script_cases/stdin"));
    let mut answered = 0;
    while !cases.0.is_empty() {
        let (length, script_length) = (cases.number(2) as usize, cases.number(2) as usize);
        let (vocabulary, script) = (cases.take(length), cases.take(script_length));
        let [Ok(one), Ok(two)] = [Edition::One, Edition::Two].map(|edition| converted(vocabulary, edition)) else {
            continue;
        };
        assert_eq!(judge::check_script(&one, script), judge::check_script(&two, script));
        answered += 1;
    }
    assert!(answered > 4_000, "{answered}");
}
