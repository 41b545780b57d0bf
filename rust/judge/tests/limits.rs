//! The wrapper's limits are those at which the library begins to refuse, and include/judge.h has the same.

#![allow(clippy::unwrap_used)]

use judge::{check_script, check_vocabulary, classify, compare, Edition, Refusal};

/// The header of a vocabulary with these roles and first statement.
fn header(roles: usize, first: u8) -> Vec<u8> {
    vec![16, 1, first, 0, roles as u8, 0, 0, 0]
}

/// A header and so many names.
fn names(count: usize) -> Vec<u8> {
    let mut bytes = header(0, 0);
    for label in 0..count as u16 {
        let [low, high] = label.to_le_bytes();
        bytes.extend([3, 0, low, high, 0, 0, 0, 0]);
    }
    bytes
}

/// The number of a refusal, 0 where there is none.
fn number<T>(answer: Result<T, Refusal>) -> u8 {
    answer.err().map_or(0, |refusal| refusal.rule.number())
}

#[test]
fn vocabularies_are_refused_past_their_limits() {
    for (over, refused) in [(0, 0), (1, 1)] {
        assert_eq!(number(check_vocabulary(&names(judge::RECORDS - 1 + over))), refused);
    }
    for (over, refused) in [(0, 0), (1, 2)] {
        assert_eq!(number(check_vocabulary(&header(judge::ROLES + over, 0))), refused);
    }
    for (over, refused) in [(0, 0), (1, 11)] {
        let vocabulary = names(judge::ATOMS + over);
        let answer = compare(&vocabulary, 1, 1, &mut [0; judge::SURVIVOR_BYTES]);
        assert_eq!(number(answer), refused);
        let (mut survivors, mut taxonomy) = ([0; judge::SURVIVOR_BYTES], [0; judge::TAXONOMY_BYTES]);
        assert_eq!(number(classify(&vocabulary, &mut survivors, &mut taxonomy)), refused);
    }
    for (short, refused) in [(0, 0), (1, 12)] {
        let mut lent = vec![0; judge::SURVIVOR_BYTES - short];
        assert_eq!(number(compare(&names(1), 1, 1, &mut lent)), refused);
        let mut taxonomy = [0; judge::TAXONOMY_BYTES];
        assert_eq!(number(classify(&names(1), &mut lent, &mut taxonomy)), refused);
    }
    for (short, refused) in [(0, 0), (1, 26)] {
        let mut lent = vec![0; judge::TAXONOMY_BYTES - short];
        let mut survivors = [0; judge::SURVIVOR_BYTES];
        assert_eq!(number(classify(&names(1), &mut survivors, &mut lent)), refused);
    }
}

/// A full taxonomy has no byte to spare: a byte for each pair of as many names as can be classified.
#[test]
fn a_taxonomy_has_room_for_the_most_names() {
    assert_eq!(judge::TAXONOMY_BYTES, judge::ATOMS * judge::ATOMS);
    let mut taxonomy = [9; judge::TAXONOMY_BYTES];
    classify(&names(judge::ATOMS), &mut [0; judge::SURVIVOR_BYTES], &mut taxonomy).unwrap();
    let equal = |place: usize| place.is_multiple_of(judge::ATOMS + 1);
    assert!(taxonomy
        .iter()
        .enumerate()
        .all(|(place, entry)| *entry == if equal(place) { 2 } else { 0 }));
}

/// A script over a name that lies within itself, which opens so many frames and leaves them open.
fn tower(frames: usize) -> Vec<u8> {
    let mut records = vec![
        [32, 1, 1, 2, 0, 0, 0, 0],
        [1, 0, 0, 0, 0, 0, 0, 0],
        [3, 1, 0, 0, 0, 0, 0, 3],
    ];
    records.resize(frames + 2, [4, 2, 0, 1, 0, 1, 0, 0]);
    let count = records.len();
    for (at, record) in records.iter_mut().enumerate().skip(2) {
        let [.., next] = record;
        *next = if at + 1 < count { at as u16 + 1 } else { 0 };
    }
    records.iter().flatten().flat_map(|word| word.to_le_bytes()).collect()
}

#[test]
fn scripts_are_refused_past_their_limits() {
    let mut vocabulary = header(0, 2);
    vocabulary.extend([3, 0, 7, 0, 0, 0, 0, 0, 9, 0, 1, 0, 1, 0, 0, 0]);
    for (over, refused) in [(0, 24), (1, 23)] {
        assert_eq!(number(check_script(&vocabulary, &tower(judge::FRAMES + over))), refused);
    }
    for (over, refused) in [(0, 14), (1, 13)] {
        let script = vec![0; (judge::SCRIPT_RECORDS + over) * judge::SCRIPT_RECORD_BYTES];
        assert_eq!(number(check_script(&vocabulary, &script)), refused);
    }
}

#[test]
fn the_header_has_the_same_limits_and_editions() {
    let header = include_str!("../../../include/judge.h");
    for (name, limit) in [
        ("VOCABULARY_BYTES", judge::VOCABULARY_BYTES),
        ("SCRIPT_BYTES", judge::SCRIPT_BYTES),
        ("SURVIVOR_BYTES", judge::SURVIVOR_BYTES),
        ("TAXONOMY_BYTES", judge::TAXONOMY_BYTES),
        ("RECORDS", judge::RECORDS),
        ("SCRIPT_RECORDS", judge::SCRIPT_RECORDS),
        ("ROLES", judge::ROLES),
        ("ATOMS", judge::ATOMS),
        ("FRAMES", judge::FRAMES),
        ("STACK_BYTES", judge::STACK_BYTES),
        ("EDITION_1", Edition::One.number().into()),
        ("EDITION_2", Edition::Two.number().into()),
    ] {
        let line = header.split(&format!("JUDGE_{name} = ")).nth(1).unwrap();
        let digits: String = line.chars().take_while(char::is_ascii_digit).collect();
        assert_eq!(digits, limit.to_string(), "{name}");
    }
}
