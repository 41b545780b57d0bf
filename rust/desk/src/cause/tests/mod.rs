//! Details against the library, on the stored cases and on damaged ones, and their words.
#![allow(clippy::unwrap_used, clippy::expect_used, clippy::panic, clippy::indexing_slicing)]

mod exact;
mod mended;

use super::script::Checked;
use super::{addition_detail, detail, vocabulary, vocabulary_detail};
use crate::stored::{script_cases, vocabularies};
use base::vocabulary::{Record, Vocabulary};
use judge::{check_script, check_vocabulary, Refusal, Rule};
use std::collections::BTreeMap;

/// The kinds of records in words.
const KINDS: [&str; 15] = [
    "the header",
    "top",
    "bottom",
    "a name",
    "a complement",
    "an intersection",
    "a union",
    "a some restriction",
    "an all restriction",
    "a statement",
    "the constant a",
    "a function term",
    "a start",
    "an extension",
    "a reduction",
];

/// A detail without what is of one case: numbers, the literals of a column, the kind of a record.
fn shape(detail: &str) -> String {
    let mut shape = String::new();
    for (i, part) in detail.split(['{', '}']).enumerate() {
        shape.push_str(if i % 2 == 0 { part } else { "COLUMN" });
    }
    for kind in KINDS {
        shape = shape.replace(&format!(", {kind}, "), ", KIND, ");
    }
    let mut plain = String::new();
    for character in shape.chars() {
        let character = if character.is_ascii_digit() { 'N' } else { character };
        if character != 'N' || !plain.ends_with('N') {
            plain.push(character);
        }
    }
    plain
}

/// Each refused script, and each refused vocabulary with a script that is not looked at, with the refusal.
fn refused() -> Vec<(Vec<u8>, Vec<u8>, Refusal)> {
    let alone = vocabularies().into_iter().map(|vocabulary| (vocabulary, Vec::new()));
    let of_script = |(vocabulary, script): (Vec<u8>, Vec<u8>)| {
        let refusal = check_script(&vocabulary, &script).err()?;
        Some((vocabulary, script, refusal))
    };
    let of_vocabulary = |(vocabulary, script): (Vec<u8>, Vec<u8>)| {
        let refusal = check_vocabulary(&vocabulary).err()?;
        Some((vocabulary, script, refusal))
    };
    let scripts = script_cases().into_iter().filter_map(of_script);
    scripts.chain(alone.filter_map(of_vocabulary)).collect()
}

#[test]
fn every_stored_refusal_has_a_detail_but_for_lengths() {
    let mut without: BTreeMap<u8, usize> = BTreeMap::new();
    let mut shapes: BTreeMap<(u8, String), usize> = BTreeMap::new();
    let mut of_chain: BTreeMap<u8, usize> = BTreeMap::new();
    for (vocabulary, script, refusal) in refused() {
        let number = refusal.rule.number();
        match detail(&vocabulary, &script, refusal) {
            None => *without.entry(number).or_default() += 1,
            Some(_) if refusal.rule.is_of_chain() => *of_chain.entry(number).or_default() += 1,
            Some(detail) => *shapes.entry((number, shape(&detail))).or_default() += 1,
        }
    }
    let numbers: Vec<u8> = without.into_keys().collect();
    assert_eq!(numbers, [1, 13]);
    let expected = [(20, 247), (21, 1060), (22, 1006), (23, 32), (24, 499), (25, 143)];
    assert_eq!(of_chain, BTreeMap::from(expected));
    let lines: Vec<String> = shapes
        .into_iter()
        .map(|((number, shape), count)| format!("{count:4} of {number}: {shape}"))
        .collect();
    let expected: Vec<&str> = include_str!("shapes.expected").lines().collect();
    assert_eq!(lines, expected);
}

/// The refusals of a vocabulary that are looked for record by record, in the table's order.
fn of_records(vocabulary: &Vocabulary, number: usize) -> [(u8, Option<String>); 5] {
    let record = vocabulary.get(number);
    [
        (3, vocabulary::kind(record)),
        (4, vocabulary::unused(record)),
        (5, vocabulary::operand(vocabulary, number, record)),
        (6, vocabulary::role(vocabulary, record)),
        (7, vocabulary::label(vocabulary, number, record)),
    ]
}

/// What is wrong with a record at which the library refuses by this rule is not found by an earlier one, and in the
/// records that it has passed nothing is found.
#[test]
fn nothing_is_found_in_the_records_that_the_library_passes() {
    let (mut records, mut links) = (0, 0);
    for bytes in vocabularies() {
        let vocabulary = Vocabulary::read(&bytes);
        let (rule, place) = match check_vocabulary(&bytes) {
            Ok(count) => (99, count as usize),
            Err(refusal) if refusal.rule.number() <= 2 => continue,
            // All records have passed; the place is none of them.
            Err(refusal) if refusal.rule == Rule::AtomCount => (99, vocabulary.records.len()),
            Err(refusal) => (refusal.rule.number(), refusal.place as usize),
        };
        assert_eq!(vocabulary::header(vocabulary.get(0)), None);
        let atoms = vocabulary::atoms(&vocabulary, vocabulary.atoms().len());
        assert!(check_vocabulary(&bytes).is_err() || atoms.is_none(), "{atoms:?}");
        let all = vocabulary.records.len();
        for number in 1..if rule >= 8 { all } else { place + 1 } {
            let limit = if number == place { rule } else { 99 };
            for (of, found) in of_records(&vocabulary, number) {
                assert!(of >= limit || found.is_none(), "{of}, record {number}: {found:?}");
                records += 1;
            }
        }
        for number in 0..if rule >= 8 { place } else { 0 } {
            assert_eq!(vocabulary::link(&vocabulary, number), None);
            links += 1;
        }
    }
    assert!(records > 100_000 && links > 10_000, "{records} {links}");
}

#[test]
fn nothing_is_found_in_the_script_records_that_the_library_passes() {
    let (mut records, mut links) = (0, 0);
    for (vocabulary, script) in script_cases() {
        let checked = Checked::new(&vocabulary, &script);
        let all = checked.script.len();
        let (rule, place) = match check_script(&vocabulary, &script) {
            Ok(_) => (99, all),
            Err(refusal) if refusal.rule.number() < 15 || refusal.rule.is_of_vocabulary() => continue,
            Err(refusal) => (refusal.rule.number(), refusal.place as usize),
        };
        assert_eq!(checked.header(), None);
        assert_eq!(checked.query(), None);
        for number in 1..if rule >= 19 { all } else { all.min(place + 1) } {
            let limit = if number == place { rule } else { 99 };
            let found = [
                (15, checked.kind(number)),
                (16, checked.unused(number)),
                (17, checked.term(number)),
                (18, checked.step(number)),
            ];
            for (of, found) in found {
                assert!(of >= limit || found.is_none(), "{of}, record {number}: {found:?}");
                records += 1;
            }
        }
        let linked = match rule {
            19 => place,
            20.. => all,
            _ => 0,
        };
        for number in 0..linked {
            assert_eq!(checked.link(number), None);
            links += 1;
        }
    }
    assert!(records > 100_000 && links > 10_000, "{records} {links}");
}

#[test]
fn a_vocabulary_has_the_same_detail_from_both_calls() {
    let mut compared = 0;
    for (vocabulary, script, refusal) in refused() {
        if refusal.rule.is_of_vocabulary() {
            let expected = vocabulary_detail(&vocabulary, refusal);
            assert_eq!(detail(&vocabulary, &script, refusal), expected);
            compared += 1;
        }
    }
    assert!(compared > 1000, "{compared}");
}

/// What is wrong with a record that the library does not add is said; there is nothing to say of one that it adds.
#[test]
fn a_refused_addition_has_a_detail() {
    let (mut refused, mut added) = ([0; 8], 0);
    for bytes in vocabularies() {
        if check_vocabulary(&bytes).is_err() || bytes.len() == judge::VOCABULARY_BYTES {
            continue;
        }
        let vocabulary = Vocabulary::read(&bytes);
        let last = vocabulary.records.len() as u16;
        let fields = [(0, 0), (0, 1), (1, 0), (1, 1), (last, 1), (1, last), (7, 7)];
        for (kind, (a, b)) in (0..=10).flat_map(|kind| fields.map(|pair| (kind, pair))) {
            let mut buffer = [bytes.as_slice(), &[0; 8]].concat();
            let answer = match kind {
                9 => judge::add_statement(&mut buffer, bytes.len(), a, b),
                _ => judge::add_term(&mut buffer, bytes.len(), kind, a, b),
            };
            let record = Record {
                kind,
                a,
                b,
                ..Record::default()
            };
            match answer {
                Ok(_) => added += 1,
                Err(refusal) => {
                    assert!(addition_detail(&bytes, record, refusal).is_some(), "{kind} {a} {b}");
                    refused[usize::from(refusal.rule.number())] += 1;
                }
            }
        }
    }
    let each_is_met = refused[3..].iter().all(|count| *count > 100);
    assert!(added > 1_000 && each_is_met, "{added} {refused:?}");
}
