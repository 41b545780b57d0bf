//! Taxonomies beside comparisons of the same names, on stored vocabularies and on random ones; and beside the stored
//! classifications, which are the second program's.

#![allow(clippy::unwrap_used, clippy::indexing_slicing, clippy::panic)]

use super::{belonging, Class, Taxonomy};
use crate::question::{Questions, Within};
use crate::stored::{classification_cases, compared};
use base::vocabulary::{Saying, Vocabulary};
use judge::{Classification, Verdict};
use std::collections::BTreeSet;

/// The records of the names of a vocabulary.
fn names(vocabulary: &[u8]) -> Vec<u16> {
    let records = Vocabulary::read(vocabulary);
    let names = records
        .sayings()
        .filter(|(_, saying)| matches!(saying, Saying::Name(_)));
    names.map(|(number, _)| number).collect()
}

/// Whether the comparison says that one term lies within another.
fn is_within(vocabulary: &[u8], a: u16, b: u16) -> bool {
    match Questions::new(vocabulary).within(a.into(), b.into()).unwrap() {
        Within::Answer(answer) => answer.verdict == Verdict::Equal,
        Within::NoRoom => panic!("there is room"),
    }
}

/// Whether the comparison says that a term is equal to what this says.
fn is_equal_to(vocabulary: &[u8], term: u16, saying: Saying) -> bool {
    let copy = [vocabulary, &saying.record(0).bytes()].concat();
    let added = (vocabulary.len() / judge::RECORD_BYTES) as u32;
    let answer = judge::compare(&copy, term.into(), added, &mut [0; judge::SURVIVOR_BYTES]);
    answer.unwrap().verdict == Verdict::Equal
}

/// A vocabulary of some names, bottom and random statements between them.
fn random(seed: u64) -> Vec<u8> {
    let mut state = seed;
    let mut below = |bound: u64| {
        state = state
            .wrapping_mul(6_364_136_223_846_793_005)
            .wrapping_add(1_442_695_040_888_963_407);
        ((state >> 33) % bound) as u16
    };
    let (names, statements) = (3 + below(8), below(12));
    let mut records = vec![Saying::Bottom];
    records.extend((0..names).map(Saying::Name));
    // Now and then nothing belongs to a name.
    let term = |number: u16| if number == 0 { 1 } else { 2 + number % names };
    records.extend((0..statements).map(|_| Saying::Within(2 + below(names.into()), term(below(40)))));
    let first = if statements > 0 { names + 2 } else { 0 };
    let mut bytes = vec![16, 1, first as u8, 0, 0, 0, 0, 0];
    for (number, saying) in (1..).zip(&records) {
        let next = if usize::from(number) < records.len() {
            number + 1
        } else {
            0
        };
        bytes.extend(saying.record(next).bytes());
    }
    bytes
}

/// Random vocabularies, and those of the stored comparisons and classifications that can be classified, have room for a
/// record more and few survivors.
fn vocabularies() -> Vec<(Vec<u8>, Taxonomy)> {
    let mut all = compared();
    all.extend((0..300).map(random));
    let asked = all
        .into_iter()
        .filter_map(|bytes| Some((Taxonomy::ask(&bytes).ok()?, bytes)));
    let few = asked.filter(|(taxonomy, bytes)| {
        taxonomy.answer.survivors <= 256 && bytes.len() < judge::VOCABULARY_BYTES && names(bytes).len() > 1
    });
    few.map(|(taxonomy, bytes)| (bytes, taxonomy)).collect()
}

#[test]
fn equal_and_nearest_broader_names_are_what_comparisons_say() {
    let (mut equal, mut nearest, mut farther) = (0, 0, 0);
    for (bytes, taxonomy) in vocabularies() {
        let names = names(&bytes);
        let within = |a: u16, b: u16| is_within(&bytes, a, b);
        let lies: BTreeSet<(u16, u16)> = (names.iter())
            .flat_map(|a| names.iter().map(move |b| (*a, *b)))
            .filter(|(a, b)| within(*a, *b))
            .collect();
        let is_strict = |a: u16, b: u16| lies.contains(&(a, b)) && !lies.contains(&(b, a));
        let told = taxonomy.names();
        assert_eq!(told.iter().map(|(name, _)| *name).collect::<Vec<u16>>(), names);
        for (a, class) in told {
            let both = |b: &u16| lies.contains(&(a, *b)) && lies.contains(&(*b, a));
            let equals: Vec<u16> = names.iter().copied().filter(both).collect();
            assert_eq!(class.names, equals);
            let is_nearest = |b: &u16| is_strict(a, *b) && !names.iter().any(|c| is_strict(a, *c) && is_strict(*c, *b));
            let broader: Vec<u16> = names.iter().copied().filter(is_nearest).collect();
            assert_eq!(taxonomy.broader_names(class), broader);
            equal += equals.len() - 1;
            nearest += broader.len();
            farther += names.iter().filter(|b| is_strict(a, **b)).count() - broader.len();
        }
        assert!(taxonomy.is_ordered());
    }
    let found = [equal, nearest, farther];
    assert!(
        found.iter().zip([1000, 1000, 300]).all(|(found, least)| *found > least),
        "{found:?}"
    );
}

/// The entries that a taxonomy is of, row by row, in hexadecimal; `-` where there are none. The last, of the last name with
/// itself, is never 0, so that none is left out in a stored line.
fn entries(taxonomy: &Taxonomy) -> String {
    let names = taxonomy.names();
    let mut text = String::new();
    for (_, class) in &names {
        let broader = taxonomy.broader_names(class);
        text.extend(names.iter().map(|(other, _)| {
            if class.names.contains(other) {
                "02"
            } else if broader.contains(other) {
                "01"
            } else {
                "00"
            }
        }));
    }
    if text.is_empty() {
        text.push('-');
    }
    text
}

#[test]
fn the_stored_classifications_have_the_counts_and_entries_of_the_taxonomy() {
    let (mut classified, mut refused) = (0, 0);
    for (bytes, line) in classification_cases() {
        let taxonomy = Taxonomy::ask(&bytes);
        let words: Vec<&str> = line.split(' ').collect();
        match (words[0], words[1], taxonomy) {
            ("counts", _, Ok(taxonomy)) => {
                let Classification { survivors, rounds } = taxonomy.answer;
                let told = [survivors.to_string(), rounds.to_string(), entries(&taxonomy)];
                assert_eq!(told.each_ref(), [words[1], words[2], words[4]], "{line}");
                classified += 1;
            }
            // The taxonomy lends enough for both.
            ("refused", "12" | "26", Ok(_)) => {}
            ("refused", number, Err(refusal)) => {
                let told = [refusal.rule.number().to_string(), refusal.place.to_string()];
                assert_eq!(told.each_ref(), [number, words[2]], "{line}");
                refused += 1;
            }
            (_, _, taxonomy) => panic!("{line}: {:?}", taxonomy.err()),
        }
    }
    assert!(classified > 2000 && refused > 700, "{classified}, {refused}");
}

#[test]
fn empty_and_full_names_are_equal_to_bottom_and_top() {
    let (mut empty, mut full, mut neither) = (0, 0, 0);
    for (bytes, taxonomy) in vocabularies() {
        for (name, class) in taxonomy.names() {
            assert_eq!(class.empty, is_equal_to(&bytes, name, Saying::Bottom));
            assert_eq!(class.full, is_equal_to(&bytes, name, Saying::Top));
            empty += usize::from(class.empty);
            full += usize::from(class.full);
            neither += usize::from(!class.empty && !class.full);
        }
        let contradictory = Questions::new(&bytes).is_contradictory().unwrap();
        assert_eq!(taxonomy.is_contradictory(), contradictory);
    }
    let found = [empty, full, neither];
    assert!(
        found.iter().zip([100, 100, 1000]).all(|(found, least)| *found > least),
        "{found:?}"
    );
}

/// A taxonomy of classes of one name each, with these nearest broader ones.
fn of(broader: &[&[usize]]) -> Taxonomy {
    let class = |(number, broader): (usize, &&[usize])| Class {
        names: vec![number as u16 + 1],
        broader: broader.to_vec(),
        empty: false,
        full: false,
    };
    Taxonomy {
        classes: broader.iter().enumerate().map(class).collect(),
        answer: Classification {
            survivors: 1,
            rounds: 0,
        },
    }
}

#[test]
fn a_circle_is_noticed_so_that_a_tree_has_an_end() {
    let ordered: [&[&[usize]]; 4] = [&[], &[&[]], &[&[1], &[]], &[&[1, 2], &[3], &[3], &[]]];
    for broader in ordered {
        assert!(of(broader).is_ordered(), "{broader:?}");
    }
    let circles: [&[&[usize]]; 3] = [&[&[0]], &[&[1], &[0]], &[&[1], &[2], &[1], &[]]];
    for broader in circles {
        assert!(!of(broader).is_ordered(), "{broader:?}");
    }
}

#[test]
fn a_class_stands_below_each_that_is_nearest_and_no_full_or_empty_one_in_a_tree() {
    // 0 below 1 and 2, which are below 3; 4 is below 0.
    let mut taxonomy = of(&[&[1, 2], &[3], &[3], &[], &[0]]);
    let below = |taxonomy: &Taxonomy, above| taxonomy.below(above).map(|(number, _)| number).collect::<Vec<usize>>();
    assert_eq!(below(&taxonomy, None), [3]);
    assert_eq!(below(&taxonomy, Some(3)), [1, 2]);
    assert_eq!([below(&taxonomy, Some(1)), below(&taxonomy, Some(2))], [[0], [0]]);
    assert_eq!(below(&taxonomy, Some(0)), [4]);
    taxonomy.classes[3].full = true;
    taxonomy.classes[4].empty = true;
    assert_eq!(below(&taxonomy, None), [1, 2]);
    assert!(taxonomy.above(1).is_empty() && below(&taxonomy, Some(0)).is_empty());
}

#[test]
fn what_belongs_is_read_off_every_survivor() {
    let mut survivors = [0; judge::SURVIVOR_BYTES];
    assert_eq!(belonging(&survivors), (0, u16::MAX));
    survivors[511] = 0x80;
    assert_eq!(belonging(&survivors), (4095, 4095));
    survivors[0] = 0b10_0100;
    assert_eq!(belonging(&survivors), (4095, 0));
    survivors[511] = 0;
    assert_eq!(belonging(&survivors), (0b111, 0));
    survivors[0] = 0b1010_0000;
    assert_eq!(belonging(&survivors), (0b111, 0b101));
}
