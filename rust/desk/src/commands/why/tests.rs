//! What the search finds beside the library's answers about every part of the chain, on stored and random vocabularies.

#![allow(clippy::unwrap_used, clippy::indexing_slicing, clippy::panic)]

use super::{find, Claim, Halt};
use crate::justification::Others;
use crate::question::{Questions, Within};
use crate::stored::comparison_cases;
use base::vocabulary::{Record, Saying, Vocabulary};
use judge::{Edition, Verdict};
use std::collections::BTreeSet;

/// The statements on the chain of a vocabulary.
fn chained(vocabulary: &Vocabulary) -> Vec<u16> {
    let chained = (0..).zip(vocabulary.chained());
    chained.filter(|(_, on)| *on).map(|(number, _)| number).collect()
}

/// Whether the claim holds by these statements, asked of a copy that the library accepts; nothing where there is no room.
fn holds(claim: Claim, vocabulary: &Vocabulary, statements: &[u16]) -> Option<bool> {
    let copy = vocabulary.with_chain(statements).bytes();
    judge::check_vocabulary(&copy).unwrap();
    let [a, b] = claim.pair;
    let answer = match claim.within {
        false => judge::compare(&copy, a, b, &mut [0; judge::SURVIVOR_BYTES]).unwrap(),
        true => match Questions::new(&copy).within(a, b).unwrap() {
            Within::Answer(answer) => answer,
            Within::NoRoom => return None,
        },
    };
    Some(answer.verdict == Verdict::Equal)
}

/// All parts of the chain by which the claim holds, and by no part of which it does.
fn by_trying_all(claim: Claim, vocabulary: &Vocabulary) -> BTreeSet<Vec<u16>> {
    let chained = chained(vocabulary);
    let part = |bits: u32| -> Vec<u16> {
        let on = chained.iter().enumerate().filter(|(i, _)| bits >> i & 1 == 1);
        on.map(|(_, statement)| *statement).collect()
    };
    let mut least: Vec<u32> = Vec::new();
    let mut all: Vec<u32> = (0..1 << chained.len()).collect();
    all.sort_by_key(|bits| bits.count_ones());
    for bits in all {
        if least.iter().all(|part| part & bits != *part) && holds(claim, vocabulary, &part(bits)).unwrap() {
            least.push(bits);
        }
    }
    least.into_iter().map(part).collect()
}

/// Checks what is found for a claim that holds; answers how many statements and sets were found.
fn check(claim: Claim, vocabulary: &Vocabulary) -> (usize, usize) {
    let found = find(claim, vocabulary, None).unwrap_or_else(|_| panic!("an answer"));
    let [one] = found.sets.as_slice() else {
        panic!("one set")
    };
    assert_eq!(holds(claim, vocabulary, &one.statements), Some(true));
    for left_out in &one.statements {
        let fewer: Vec<u16> = one.statements.iter().copied().filter(|on| on != left_out).collect();
        assert_eq!(holds(claim, vocabulary, &fewer), Some(false));
    }
    let mut sets = 1;
    if chained(vocabulary).len() <= 7 {
        let wanted = by_trying_all(claim, vocabulary);
        let all = find(claim, vocabulary, Some(64)).unwrap_or_else(|_| panic!("an answer"));
        let found: Vec<Vec<u16>> = all.sets.iter().map(|set| set.statements.clone()).collect();
        assert_eq!((found.iter().cloned().collect(), all.others), (wanted, Others::None));
        assert!(found.is_sorted_by_key(|set| (set.len(), set.clone())));
        sets = found.len();
    }
    (one.statements.len(), sets)
}

/// Checks both claims about a pair, where they hold; answers how many had a set of several statements, and several sets.
fn check_both(vocabulary: &Vocabulary, pair: [u32; 2]) -> [usize; 3] {
    let mut counts = [0; 3];
    for within in [false, true] {
        let claim = Claim { pair, within };
        if holds(claim, vocabulary, &chained(vocabulary)) == Some(true) {
            let (statements, sets) = check(claim, vocabulary);
            counts[0] += 1;
            counts[1] += usize::from(statements > 1);
            counts[2] += usize::from(sets > 1);
        }
    }
    counts
}

fn sum(all: impl Iterator<Item = [usize; 3]>) -> [usize; 3] {
    all.fold([0; 3], |a, b| [a[0] + b[0], a[1] + b[1], a[2] + b[2]])
}

#[test]
fn sets_of_the_stored_comparisons_are_enough_and_minimal() {
    let cases = comparison_cases().into_iter().filter(|(bytes, a, b)| {
        let is_compared = judge::compare(bytes, *a, *b, &mut [0; judge::SURVIVOR_BYTES]).is_ok();
        is_compared && bytes.len() < judge::VOCABULARY_BYTES
    });
    let counts = sum(cases.map(|(bytes, a, b)| check_both(&Vocabulary::read(&bytes), [a, b])));
    assert!(counts[0] > 2_000 && counts[1] > 100 && counts[2] > 20, "{counts:?}");
}

/// A vocabulary of names, restrictions, other terms and up to seven statements, of which some are off the chain.
fn random(seed: u64) -> (Vocabulary, [u32; 2]) {
    let mut state = seed;
    let mut below = |bound: u16| {
        state = state
            .wrapping_mul(6_364_136_223_846_793_005)
            .wrapping_add(1_442_695_040_888_963_407);
        ((state >> 33) % u64::from(bound)) as u16
    };
    let mut sayings: Vec<Saying> = vec![Saying::Bottom];
    sayings.extend((0..3 + below(3)).map(Saying::Name));
    for _ in 0..below(6) {
        let count = sayings.len() as u16;
        let (a, b) = (1 + below(count), 1 + below(count));
        sayings.push(match below(5) {
            0 => Saying::Not(a),
            1 => Saying::And(a, b),
            2 => Saying::Or(a, b),
            3 => Saying::Some(0, a),
            _ => Saying::All(0, a),
        });
    }
    let terms = sayings.len() as u16;
    sayings.extend((0..9).map(|_| Saying::Within(1 + below(terms), 1 + below(terms))));
    let mut records = vec![Record::header(Edition::One, 1)];
    records.extend(sayings.iter().map(|saying| saying.record(0)));
    let vocabulary = Vocabulary { records };
    let on: Vec<u16> = (1 + terms..10 + terms).filter(|_| below(5) > 0).take(7).collect();
    let mut bytes = vocabulary.with_chain(&on).bytes();
    if seed.is_multiple_of(2) {
        judge::set_edition(&mut bytes, Edition::Two).unwrap();
    }
    let pair = [1 + below(terms), 1 + below(terms)].map(u32::from);
    (Vocabulary::read(&bytes), pair)
}

#[test]
fn sets_of_random_vocabularies_are_all_that_there_are() {
    let counts = sum((0..1_500)
        .map(random)
        .map(|(vocabulary, pair)| check_both(&vocabulary, pair)));
    assert!(counts[0] > 500 && counts[1] > 100 && counts[2] > 100, "{counts:?}");
}

#[test]
fn a_full_vocabulary_may_leave_no_room_for_what_is_asked() {
    // c0 and c1 lie within each other; the rest is filled up.
    let mut sayings = vec![
        Saying::Name(0),
        Saying::Name(1),
        Saying::Within(1, 2),
        Saying::Within(2, 1),
    ];
    sayings.resize(511, Saying::Or(1, 1));
    let full = |last: Saying| {
        let mut records = vec![Record::header(Edition::One, 0)];
        records.extend(sayings.iter().map(|saying| saying.record(0)));
        records[511] = last.record(0);
        Vocabulary { records }.with_chain(&[3, 4])
    };
    let found = |vocabulary: &Vocabulary, within| find(Claim { pair: [1, 2], within }, vocabulary, None);
    let none = full(Saying::Or(1, 1));
    assert!(matches!(found(&none, true), Err(Halt::NoRoomInCopy)));
    let both = found(&none, false).unwrap_or_else(|_| panic!("an answer"));
    assert_eq!(both.sets[0].statements, [3, 4]);
    let one = found(&full(Saying::And(1, 2)), true).unwrap_or_else(|_| panic!("an answer"));
    assert_eq!(one.sets[0].statements, [3]);
}
