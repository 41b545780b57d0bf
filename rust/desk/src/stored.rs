//! The stored cases of the library, for tests.
#![allow(clippy::unwrap_used, clippy::expect_used, clippy::panic, clippy::indexing_slicing)]

use std::collections::BTreeSet;

/// A file of a crate of the library.
fn file(crate_name: &str, name: &str) -> Vec<u8> {
    let root = concat!(env!("CARGO_MANIFEST_DIR"), "/../../crates");
    std::fs::read(format!("{root}/{crate_name}/{name}")).expect("the cases")
}

/// The cases of a crate.
fn bytes(crate_name: &str) -> Vec<u8> {
    file(crate_name, "stdin")
}

/// Takes the first bytes.
fn take<'a>(rest: &mut &'a [u8], length: usize) -> &'a [u8] {
    let (front, after) = rest.split_at(length);
    *rest = after;
    front
}

/// Takes a number of 16 bits.
fn word(rest: &mut &[u8]) -> usize {
    usize::from(u16::from_le_bytes(take(rest, 2).try_into().unwrap()))
}

/// Takes a number of 32 bits.
fn long(rest: &mut &[u8]) -> u32 {
    u32::from_le_bytes(take(rest, 4).try_into().unwrap())
}

/// The vocabulary of each case of crates/vocabulary_cases/stdin, of whatever length.
pub fn vocabulary_cases() -> Vec<Vec<u8>> {
    let bytes = bytes("vocabulary_cases");
    let (mut rest, mut cases) = (bytes.as_slice(), Vec::new());
    while !rest.is_empty() {
        let length = word(&mut rest);
        take(&mut rest, 4);
        cases.push(take(&mut rest, length).to_vec());
    }
    assert_eq!(cases.len(), 5931);
    cases
}

/// The vocabulary, A and B of each case of crates/comparison_cases/stdin.
pub fn comparison_cases() -> Vec<(Vec<u8>, u32, u32)> {
    let bytes = bytes("comparison_cases");
    let (mut rest, mut cases) = (bytes.as_slice(), Vec::new());
    while !rest.is_empty() {
        let (length, a, b) = (word(&mut rest), long(&mut rest), long(&mut rest));
        take(&mut rest, 3);
        cases.push((take(&mut rest, length).to_vec(), a, b));
    }
    assert_eq!(cases.len(), 5561);
    cases
}

/// The vocabulary of each case of crates/classification_cases/stdin, with its line of stdout.
pub fn classification_cases() -> Vec<(Vec<u8>, String)> {
    let bytes = bytes("classification_cases");
    let lines = String::from_utf8(file("classification_cases", "stdout")).unwrap();
    let (mut rest, mut cases) = (bytes.as_slice(), Vec::new());
    for line in lines.lines() {
        let length = word(&mut rest);
        take(&mut rest, 5);
        cases.push((take(&mut rest, length).to_vec(), line.to_string()));
    }
    assert!(rest.is_empty());
    assert_eq!(cases.len(), 4161);
    cases
}

/// The vocabularies of the comparison cases and of the classification cases, each once.
pub fn compared() -> BTreeSet<Vec<u8>> {
    let of_comparisons = comparison_cases().into_iter().map(|(vocabulary, _, _)| vocabulary);
    let of_classifications = classification_cases().into_iter().map(|(vocabulary, _)| vocabulary);
    of_comparisons.chain(of_classifications).collect()
}

/// The vocabulary and the script of each case of crates/script_cases/stdin.
pub fn script_cases() -> Vec<(Vec<u8>, Vec<u8>)> {
    let bytes = bytes("script_cases");
    let (mut rest, mut cases) = (bytes.as_slice(), Vec::new());
    while !rest.is_empty() {
        let (vocabulary, script) = (word(&mut rest), word(&mut rest));
        let vocabulary = take(&mut rest, vocabulary).to_vec();
        cases.push((vocabulary, take(&mut rest, script).to_vec()));
    }
    assert_eq!(cases.len(), 6575);
    cases
}

/// The vocabularies of the vocabulary cases and of the script cases, each once.
pub fn vocabularies() -> BTreeSet<Vec<u8>> {
    let of_scripts = script_cases().into_iter().map(|(vocabulary, _)| vocabulary);
    of_scripts.chain(vocabulary_cases()).collect()
}
