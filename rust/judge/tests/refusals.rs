//! Every refusal of the table, with its place and its words, through the wrapper.

#![allow(clippy::unwrap_used, clippy::indexing_slicing)]

use judge::{Place, Refusal, Rule};

/// The table of docs/FORMATS.md in words, as a refusal is printed.
const PRINTED: [&str; 28] = [
    "refused, 1: the vocabulary's length is under 8, over 4,096 or no multiple of 8",
    "refused, 2: the vocabulary's header has a wrong kind, second byte, role count or next",
    "refused, 3, at record 1: the record's kind is not 1 to 9, or its second byte is not 0",
    "refused, 4, at record 1: an unused field of the record is not zero",
    "refused, 5, at record 2: a term number of the record does not name an earlier term",
    "refused, 6, at record 2: the record's role is not below the header's count",
    "refused, 7, at record 2: the name has the label of an earlier name",
    "refused, 8, at record 2: the first statement, or a statement's next, is not 0 and not a later statement",
    "refused, 9, number 70000: the record number is past the end",
    "refused, 10, number 70000: the number asked about is no term record",
    "refused, 11, 13 atoms: the vocabulary has over 12 atoms, too many to compare or to classify",
    "refused, 12: under 512 bytes are lent for the survivors",
    "refused, 13: the script's length is under 16, over 32,768 or no multiple of 16",
    "refused, 14: the script's header has a wrong w0, or w4 to w7 are not zero",
    "refused, 15, at script record 2: the script record's kind is not 1 to 5",
    "refused, 16, at script record 2: an unused word of the script record is not zero",
    "refused, 17, at script record 1: the term record breaks the term rule, or record 1 is absent or not the constant",
    "refused, 18, at script record 2: the step names a query column, owner, column, position or term that does not exist for it",
    "refused, 19, at script record 2: the first step, or a step's next, is not 0 and not a later step",
    "refused, 20, at script record 2: the chain has no first start, or a later one",
    "refused, 21, at script record 3: the extension's literal is not the complement of the goal",
    "refused, 22, at script record 3: the reduction's frame is not below the last, or its goal is not the complement",
    "refused, 23, at script record 66: the extension would open a 65th frame",
    "refused, 24, at script record 2: the chain ends with a frame left",
    "refused, 25, at script record 4: a step follows after all is closed",
    "refused, 26: under 144 bytes are lent for the taxonomy",
    "refused, 27, at record 3: the vocabulary has 512 records, or under 8 bytes of the buffer are free",
    "refused, 28, 1 atom: the vocabulary's header, of edition 2, has a wrong number of atoms",
];

/// A vocabulary of these records.
fn vocabulary(records: &[(u8, u8, u16, u16, u16)]) -> Vec<u8> {
    let mut bytes = Vec::new();
    for (kind, second, a, b, next) in records {
        bytes.extend([*kind, *second]);
        bytes.extend([a, b, next].into_iter().flat_map(|word| word.to_le_bytes()));
    }
    bytes
}

/// A script of these records.
fn script(records: &[[u16; 8]]) -> Vec<u8> {
    records.iter().flatten().flat_map(|word| word.to_le_bytes()).collect()
}

/// A name that lies within itself.
fn one_name() -> Vec<u8> {
    vocabulary(&[(16, 1, 2, 0, 0), (3, 0, 7, 0, 0), (9, 0, 1, 1, 0)])
}

/// The refusal of a script of the header "1 within 1", with its first step at 2, the constant, and these records.
fn refused_script(records: &[[u16; 8]]) -> Option<Refusal> {
    let mut all = vec![[32, 1, 1, 2, 0, 0, 0, 0], [1, 0, 0, 0, 0, 0, 0, 0]];
    all.extend(records);
    judge::check_script(&one_name(), &script(&all)).err()
}

/// A start with the query column 0, whose literal is that the constant is not in the name.
const START: [u16; 8] = [3, 0, 0, 0, 0, 0, 0, 3];
/// An extension by the query column 1, which closes the goal.
const CLOSE: [u16; 8] = [4, 0, 1, 1, 0, 0, 0, 4];

/// As many extensions by the statement as would open a 65th frame.
fn tower() -> Vec<[u16; 8]> {
    let mut steps = vec![START];
    steps.extend((3..=66).map(|number| [4, 2, 0, 1, 0, 0, 0, if number < 66 { number + 1 } else { 0 }]));
    steps
}

/// The refusal that is made for a row of the table.
fn refusal(number: u8) -> Option<Refusal> {
    let header = (16, 1, 0, 0, 0);
    let check = |records: &[(u8, u8, u16, u16, u16)]| judge::check_vocabulary(&vocabulary(records)).err();
    let name = (3, 0, 7, 0, 0);
    let names: Vec<_> = (0..13).map(|label| (3, 0, label, 0, 0)).collect();
    match number {
        1 => judge::check_vocabulary(&[16, 1, 0, 0, 0, 0, 0]).err(),
        2 => check(&[(16, 0, 0, 0, 0)]),
        3 => check(&[header, (10, 0, 0, 0, 0)]),
        4 => check(&[header, (3, 0, 7, 1, 0)]),
        5 => check(&[header, name, (4, 0, 2, 0, 0)]),
        6 => check(&[header, name, (7, 0, 0, 1, 0)]),
        7 => check(&[header, name, name]),
        8 => check(&[header, name, (9, 0, 1, 1, 1)]),
        9 => judge::record(&one_name(), 70_000).err(),
        10 => judge::compare(&one_name(), 1, 70_000, &mut [0; 512]).err(),
        11 => judge::compare(&vocabulary(&[&[header], &names[..]].concat()), 1, 2, &mut [0; 512]).err(),
        12 => judge::compare(&one_name(), 1, 1, &mut [0; 511]).err(),
        13 => judge::check_script(&one_name(), &[32, 0]).err(),
        14 => judge::check_script(&one_name(), &script(&[[31, 1, 1, 0, 0, 0, 0, 0]])).err(),
        15 => refused_script(&[[6, 0, 0, 0, 0, 0, 0, 0]]),
        16 => refused_script(&[[3, 0, 1, 0, 0, 0, 0, 0]]),
        17 => judge::check_script(&one_name(), &script(&[[32, 1, 1, 0, 0, 0, 0, 0]])).err(),
        18 => refused_script(&[[3, 2, 0, 0, 0, 0, 0, 0]]),
        19 => refused_script(&[[3, 0, 0, 0, 0, 0, 0, 1]]),
        20 => refused_script(&[[5, 0, 0, 0, 0, 0, 0, 0]]),
        21 => refused_script(&[START, [4, 2, 0, 1, 0, 1, 0, 0]]),
        22 => refused_script(&[START, [5, 0, 0, 0, 0, 0, 0, 0]]),
        23 => refused_script(&tower()),
        24 => refused_script(&[[3, 0, 0, 0, 0, 0, 0, 0]]),
        25 => refused_script(&[START, CLOSE, [5, 0, 0, 0, 0, 0, 0, 0]]),
        26 => judge::classify(&one_name(), &mut [0; 512], &mut [0; 143]).err(),
        27 => judge::add_term(&mut one_name(), 24, 1, 0, 0).err(),
        28 => check(&[(16, 2, 0, 0, 5), name]),
        _ => None,
    }
}

#[test]
fn each_refusal_has_its_number_place_and_words() {
    for (number, printed) in (1..).zip(PRINTED) {
        let refusal = refusal(number).unwrap();
        assert_eq!(refusal.rule.number(), number);
        assert_eq!(refusal.to_string(), printed);
        assert!(printed.ends_with(&format!(": {}", refusal.rule.words())));
        assert_eq!(refusal.rule.is_of_chain(), (20..=25).contains(&number));
        assert_eq!(refusal.rule.is_of_vocabulary(), matches!(number, 1..=8 | 28));
    }
}

/// The first of the table's order that applies: 1 to 8, 28, 11, 12, 26.
#[test]
fn a_classification_is_refused_in_the_tables_order() {
    let header = (16, 1, 0, 0, 0);
    let names: Vec<_> = (0..13).map(|label| (3, 0, label, 0, 0)).collect();
    let cut = vocabulary(&[header, (3, 0, 7, 0, 0)])[..15].to_vec();
    let repeated = vocabulary(&[&[header], &names[..], &names[..1]].concat());
    let many = vocabulary(&[&[header], &names[..]].concat());
    let miscounted = vocabulary(&[&[(16, 2, 0, 0, 12)], &names[..]].concat());
    for (vocabulary, lent, number, place) in [
        (&cut, [0, 0], 1, 0),
        (&repeated, [0, 0], 7, 14),
        (&miscounted, [0, 0], 28, 13),
        (&many, [0, 0], 11, 13),
        (&one_name(), [511, 0], 12, 0),
        (&one_name(), [512, 143], 26, 0),
    ] {
        let [mut survivors, mut taxonomy] = lent.map(|length| vec![0; length]);
        let refusal = judge::classify(vocabulary, &mut survivors, &mut taxonomy).unwrap_err();
        assert_eq!((refusal.rule.number(), refusal.place), (number, place));
    }
}

#[test]
fn what_is_next_to_a_refusal_is_accepted() {
    assert_eq!(judge::check_vocabulary(&one_name()), Ok(3));
    let steps = [[32, 1, 1, 2, 0, 0, 0, 0], [1, 0, 0, 0, 0, 0, 0, 0], START];
    let close = [4, 0, 1, 1, 0, 0, 0, 0];
    let whole = script(&[&steps[..], &[close]].concat());
    assert_eq!(judge::check_script(&one_name(), &whole), Ok(2));
}

#[test]
fn a_rule_is_known_by_its_number() {
    for number in 0..=255 {
        let rule = Rule::of(number);
        assert_eq!(rule.number(), number);
        assert_eq!(matches!(rule, Rule::Unlisted(_)), !(1..=28).contains(&number));
    }
    let unlisted = Refusal {
        rule: Rule::of(77),
        place: 5,
    };
    assert_eq!(
        unlisted.to_string(),
        "refused, 77: a refusal that the table does not have"
    );
}

#[test]
fn places_are_of_the_sort_that_the_table_gives() {
    let sort = |number| match number {
        3..=8 | 27 => Place::Record,
        9 | 10 => Place::Asked,
        11 | 28 => Place::Atoms,
        15..=25 => Place::ScriptRecord,
        _ => Place::Whole,
    };
    for number in 0..=255 {
        assert_eq!(Rule::of(number).place(), sort(number), "{number}");
    }
}

/// include/judge.h answers the same sentence for each number.
#[test]
fn the_header_has_the_same_sentences() {
    let header = include_str!("../../../include/judge.h");
    // A sentence may be written in pieces on several lines.
    let header: String = header.lines().map(str::trim).collect();
    let header = header.replace("\"\"", "");
    for number in 1..=28 {
        let sentence = format!("\"{}\"", Rule::of(number).words());
        assert!(header.contains(&sentence), "{number}: {sentence}");
    }
}
