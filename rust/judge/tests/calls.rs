//! The calls through the wrapper: what they write, slices of every length, and the stored cases.

#![allow(clippy::unwrap_used, clippy::indexing_slicing)]

mod support;

use judge::{Classification, Comparison, Refusal, Relation, Verdict, SURVIVOR_BYTES, TAXONOMY_BYTES};
use std::fmt::Write;
use support::Cases;

/// Sample V of docs/FORMATS.md, section 10: names 1, 2, 3; 4 = 1 and 2; 5: 4 within 3.
const V: &[u8] = include_bytes!("../../../examples/v.vocabulary");

#[test]
fn sample_v_compares_as_the_paper_says() {
    let mut survivors = [9; SURVIVOR_BYTES];
    let expected = Comparison {
        verdict: Verdict::Different { element: 4 },
        survivors: 7,
        rounds: 0,
    };
    assert_eq!(judge::compare(V, 4, 3, &mut survivors), Ok(expected));
    assert_eq!((survivors[0], &survivors[1..]), (247, &[0; SURVIVOR_BYTES - 1][..]));
}

#[test]
fn a_buffer_that_is_too_short_keeps_its_content() {
    let pattern: Vec<u8> = (0..SURVIVOR_BYTES).map(|i| (i * 7 + 3) as u8).collect();
    for length in 0..SURVIVOR_BYTES {
        let mut buffer = pattern[..length].to_vec();
        let refusal = judge::compare(V, 4, 3, &mut buffer).unwrap_err();
        assert_eq!((refusal.rule.number(), refusal.place), (12, 0));
        assert_eq!(buffer, pattern[..length]);
    }
}

#[test]
fn a_longer_buffer_keeps_the_bytes_after_the_survivors() {
    for over in [0, 1, 7, 100, 4096] {
        let mut buffer = vec![171; SURVIVOR_BYTES + over];
        judge::compare(V, 4, 3, &mut buffer).unwrap();
        assert_eq!(buffer[0], 247);
        assert!(buffer[SURVIVOR_BYTES..].iter().all(|byte| *byte == 171));
        // A refusal leaves the survivors of the call before.
        judge::compare(V, 0, 3, &mut buffer).unwrap_err();
        assert_eq!(buffer[0], 247);
    }
}

/// Names 1 to 6; 3 and 4 are stated equal; 1 within 2, 2 within 3, 1 within 3; 5 within "not 5", 7. So 1 is below 2, 2 below
/// the equal 3 and 4, nothing belongs to 5, and 6 stands alone.
const LADDER: [u8; 112] = [
    16, 1, 8, 0, 0, 0, 0, 0, 3, 0, 1, 0, 0, 0, 0, 0, 3, 0, 2, 0, 0, 0, 0, 0, 3, 0, 3, 0, 0, 0, 0, 0, //
    3, 0, 4, 0, 0, 0, 0, 0, 3, 0, 5, 0, 0, 0, 0, 0, 3, 0, 6, 0, 0, 0, 0, 0, 4, 0, 5, 0, 0, 0, 0, 0, //
    9, 0, 3, 0, 4, 0, 9, 0, 9, 0, 4, 0, 3, 0, 10, 0, 9, 0, 1, 0, 2, 0, 11, 0, 9, 0, 2, 0, 3, 0, 12, 0, //
    9, 0, 1, 0, 3, 0, 13, 0, 9, 0, 5, 0, 7, 0, 0, 0,
];

/// Its taxonomy: a row for each name, a byte for each name.
#[rustfmt::skip]
const ROWS: [u8; 36] = [
    2, 1, 0, 0, 0, 0,
    0, 2, 1, 1, 0, 0,
    0, 0, 2, 2, 0, 0,
    0, 0, 2, 2, 0, 0,
    1, 0, 0, 0, 2, 1,
    0, 0, 0, 0, 0, 2,
];

#[test]
fn a_classification_writes_survivors_and_rows_of_as_many_bytes_as_names() {
    let (mut survivors, mut compared) = ([9; SURVIVOR_BYTES], [7; SURVIVOR_BYTES]);
    let mut taxonomy = [9; TAXONOMY_BYTES];
    let answer = judge::classify(&LADDER, &mut survivors, &mut taxonomy).unwrap();
    let Comparison {
        survivors: count,
        rounds,
        ..
    } = judge::compare(&LADDER, 1, 6, &mut compared).unwrap();
    // 1, 2 and 3 as a ladder of four rungs, and 6 free.
    assert_eq!((count, rounds), (8, 0));
    assert_eq!(
        answer,
        Classification {
            survivors: count,
            rounds
        }
    );
    assert_eq!(survivors, compared);
    assert_eq!((&taxonomy[..36], &taxonomy[36..]), (&ROWS[..], &[0; 108][..]));
}

#[test]
fn an_entry_is_read_by_its_names() {
    let mut taxonomy = [0; TAXONOMY_BYTES];
    judge::classify(&LADDER, &mut [0; SURVIVOR_BYTES], &mut taxonomy).unwrap();
    let relation = |first, second| judge::relation(&taxonomy, 6, first, second);
    assert_eq!(relation(0, 1), Relation::NearestBroader);
    assert_eq!([relation(1, 0), relation(0, 2)], [Relation::Neither; 2]);
    assert_eq!([relation(2, 3), relation(3, 2), relation(5, 5)], [Relation::Equal; 3]);
    // What is no name of the vocabulary has no entry, though there may be a byte at its place.
    assert_eq!([relation(0, 6), relation(6, 0)], [Relation::Neither; 2]);
    let last = [2; TAXONOMY_BYTES];
    assert_eq!(judge::relation(&last, 12, 11, 11), Relation::Equal);
    for (names, first, second) in [(0, 0, 0), (13, 0, 0), (usize::MAX, usize::MAX - 1, 3)] {
        assert_eq!(judge::relation(&last, names, first, second), Relation::Neither);
    }
    assert_eq!(judge::relation(&[], 1, 0, 0), Relation::Neither);
}

#[test]
fn without_names_or_without_survivors_the_taxonomy_is_zero_or_all_equal() {
    let classify = |vocabulary: &[u8]| {
        let mut taxonomy = [9; TAXONOMY_BYTES];
        let answer = judge::classify(vocabulary, &mut [9; SURVIVOR_BYTES], &mut taxonomy).unwrap();
        (answer.survivors, taxonomy)
    };
    // The header alone; a name and "the name within not the name", "not the name within the name".
    assert_eq!(classify(&[16, 1, 0, 0, 0, 0, 0, 0]), (1, [0; TAXONOMY_BYTES]));
    let contradiction = [
        16, 1, 4, 0, 0, 0, 0, 0, 3, 0, 1, 0, 0, 0, 0, 0, 3, 0, 2, 0, 0, 0, 0, 0, 4, 0, 1, 0, 0, 0, 0, 0, //
        9, 0, 1, 0, 3, 0, 5, 0, 9, 0, 3, 0, 1, 0, 0, 0,
    ];
    let mut equal = [0; TAXONOMY_BYTES];
    equal[..4].fill(2);
    assert_eq!(classify(&contradiction), (0, equal));
}

#[test]
fn buffers_that_are_too_short_keep_their_content_and_the_survivors_are_asked_for_first() {
    let pattern: Vec<u8> = (0..SURVIVOR_BYTES).map(|i| (i * 7 + 3) as u8).collect();
    let lengths = (0..SURVIVOR_BYTES).map(|short| (short, short % 200, 12));
    let lengths = lengths.chain((0..TAXONOMY_BYTES).map(|short| (SURVIVOR_BYTES, short, 26)));
    for (survivors_len, taxonomy_len, number) in lengths {
        let (mut survivors, mut taxonomy) = (pattern[..survivors_len].to_vec(), pattern[..taxonomy_len].to_vec());
        let refusal = judge::classify(V, &mut survivors, &mut taxonomy).unwrap_err();
        assert_eq!((refusal.rule.number(), refusal.place), (number, 0));
        assert_eq!(
            (&survivors[..], &taxonomy[..]),
            (&pattern[..survivors_len], &pattern[..taxonomy_len])
        );
    }
}

#[test]
fn longer_buffers_keep_the_bytes_after_survivors_and_taxonomy() {
    for over in [0, 1, 7, 100, 4096] {
        let (mut survivors, mut taxonomy) = (vec![171; SURVIVOR_BYTES + over], vec![205; TAXONOMY_BYTES + over]);
        judge::classify(V, &mut survivors, &mut taxonomy).unwrap();
        assert_eq!(
            (survivors[0], &taxonomy[..10]),
            (247, &[2, 0, 0, 0, 2, 0, 0, 0, 2, 0][..])
        );
        assert!(survivors[SURVIVOR_BYTES..].iter().all(|byte| *byte == 171));
        assert!(taxonomy[TAXONOMY_BYTES..].iter().all(|byte| *byte == 205));
        // A refusal leaves what the call before wrote.
        judge::classify(&V[..20], &mut survivors, &mut taxonomy).unwrap_err();
        assert_eq!((survivors[0], taxonomy[0]), (247, 2));
    }
}

#[test]
fn a_record_is_a_part_of_the_vocabulary() {
    for number in 0..6 {
        let part = judge::record(V, number).unwrap();
        assert_eq!(part.len(), 8);
        assert_eq!(part.as_ptr(), V[8 * number as usize..].as_ptr());
    }
    assert_eq!(judge::record(V, 6).unwrap_err().place, 6);
}

#[test]
fn slices_of_every_length_get_an_answer() {
    let counting: Vec<u8> = (0..=80).collect();
    let kinds: Vec<u8> = (0..81).map(|i| if i % 8 == 0 { i / 8 } else { 0 }).collect();
    let mut answers = 0;
    for source in [&[0; 81][..], &[255; 81], &counting, &kinds, &[V, V].concat()] {
        for (start, length) in (0..16).flat_map(|start| (0..=64).map(move |length| (start, length))) {
            let slice = &source[start..start + length];
            let whole = length >= 8 && length % 8 == 0;
            let vocabulary = judge::check_vocabulary(slice);
            assert_eq!(vocabulary.is_err_and(|refusal| refusal.rule.number() == 1), !whole);
            assert_eq!(judge::record(slice, 0).is_ok(), whole);
            // The vocabulary's refusal comes first, whatever is asked.
            let compared = judge::compare(slice, 1, 2, &mut [0; 512]).err();
            assert!(vocabulary.is_ok() || compared == vocabulary.err());
            let classified = judge::classify(slice, &mut [0; 512], &mut [0; 144]).err();
            assert!(vocabulary.is_ok() || classified == vocabulary.err());
            let script = judge::check_script(V, slice).unwrap_err().rule.number();
            assert_eq!(script == 13, length < 16 || length % 16 != 0);
            assert!(judge::check_script(slice, slice).is_err());
            answers += 1;
        }
    }
    assert_eq!(answers, 5 * 16 * 65);
}

fn refused(refusal: Refusal) -> String {
    format!("{} {}", refusal.rule.number(), refusal.place)
}

#[test]
fn the_stored_vocabularies_are_answered_as_expected() {
    let mut cases = Cases(include_bytes!("../../../crates/vocabulary_cases/stdin"));
    let expected = include_str!("../../../crates/vocabulary_cases/stdout");
    for line in expected.lines() {
        let (length, number) = (cases.number(2) as usize, cases.number(4));
        let vocabulary = cases.take(length);
        let check = judge::check_vocabulary(vocabulary).map_or_else(refused, |count| format!("0 {count}"));
        let record = judge::record(vocabulary, number).map_or_else(refused, |part| {
            let offset = part.as_ptr() as usize - vocabulary.as_ptr() as usize;
            part.iter()
                .fold(format!("0 {offset}"), |line, byte| format!("{line} {byte}"))
        });
        assert_eq!(format!("{check} {record}"), line);
    }
    assert!(cases.0.is_empty() && expected.lines().count() > 4_000);
}

/// Record 10 of the script says the term of record 2.
#[test]
fn a_term_may_stand_under_several_records_and_the_constant_may_not() {
    let vocabulary = include_bytes!("../../../examples/cat-owner/terms.vocabulary");
    let mut script = *include_bytes!("../../../examples/cat-owner/repeated.script");
    assert_eq!(script[2 * 16..3 * 16], script[10 * 16..11 * 16]);
    assert_eq!(judge::check_script(vocabulary, &script), Ok(15));
    script.copy_within(16..2 * 16, 10 * 16);
    let refusal = judge::check_script(vocabulary, &script).unwrap_err();
    assert_eq!((refusal.rule.number(), refusal.place), (17, 10));
}

#[test]
fn the_stored_scripts_are_answered_as_expected() {
    let mut cases = Cases(include_bytes!("../../../crates/script_cases/stdin"));
    let expected = include_str!("../../../crates/script_cases/stdout");
    for line in expected.lines() {
        let (length, script_length) = (cases.number(2) as usize, cases.number(2) as usize);
        let (vocabulary, script) = (cases.take(length), cases.take(script_length));
        let answer = judge::check_script(vocabulary, script);
        let answer = answer.map_or_else(
            |refusal| format!("refused {}", refused(refusal)),
            |steps| format!("accepted {steps}"),
        );
        assert_eq!(answer, line);
    }
    assert!(cases.0.is_empty() && expected.lines().count() > 4_000);
}

/// The first so many bytes in hexadecimal as far as the last that is not 0, or `-`.
fn written(buffer: &[u8], length: usize) -> String {
    let front = &buffer[..length];
    let end = front.iter().rposition(|byte| *byte != 0).map_or(0, |last| last + 1);
    let mut text = String::new();
    for byte in &front[..end] {
        write!(text, "{byte:02x}").unwrap();
    }
    if text.is_empty() {
        text.push('-');
    }
    text
}

/// So many lent bytes, as the stored cases have them before a call.
fn lent(length: u32, seed: u32) -> Vec<u8> {
    (0..length).map(|i| (7 * i + seed) as u8).collect()
}

/// The sum of the bytes, and the sum of the first sum after each.
fn sums(buffer: &[u8]) -> String {
    let (mut first, mut second) = (0u64, 0u64);
    for byte in buffer {
        first += u64::from(*byte);
        second += first;
    }
    format!("{first} {second}")
}

#[test]
fn the_stored_comparisons_are_answered_as_expected() {
    let mut cases = Cases(include_bytes!("../../../crates/comparison_cases/stdin"));
    let expected = include_str!("../../../crates/comparison_cases/stdout");
    for line in expected.lines() {
        let (length, a, b) = (cases.number(2), cases.number(4), cases.number(4));
        let mut buffer = lent(cases.number(2), cases.number(1));
        let vocabulary = cases.take(length as usize);
        let answer = match judge::compare(vocabulary, a, b, &mut buffer) {
            Err(refusal) => format!("refused {}", refused(refusal)),
            Ok(answer) => {
                let verdict = match answer.verdict {
                    Verdict::Equal => "equal".to_string(),
                    Verdict::Different { element } => format!("different {element}"),
                };
                let counts = format!("{} {}", answer.survivors, answer.rounds);
                format!("{verdict} {counts} {}", written(&buffer, SURVIVOR_BYTES))
            }
        };
        assert_eq!(format!("{answer} {}", sums(&buffer)), line);
    }
    assert!(cases.0.is_empty() && expected.lines().count() > 4_000);
}

#[test]
fn the_stored_classifications_are_answered_as_expected() {
    let mut cases = Cases(include_bytes!("../../../crates/classification_cases/stdin"));
    let expected = include_str!("../../../crates/classification_cases/stdout");
    for line in expected.lines() {
        let [length, survivors_len, taxonomy_len] = [(); 3].map(|()| cases.number(2));
        let seed = cases.number(1);
        let vocabulary = cases.take(length as usize);
        let (mut survivors, mut taxonomy) = (lent(survivors_len, seed), lent(taxonomy_len, 255 - seed));
        let answer = match judge::classify(vocabulary, &mut survivors, &mut taxonomy) {
            Err(refusal) => format!("refused {}", refused(refusal)),
            Ok(Classification {
                survivors: count,
                rounds,
            }) => {
                let [first, second] = [written(&survivors, SURVIVOR_BYTES), written(&taxonomy, TAXONOMY_BYTES)];
                format!("counts {count} {rounds} {first} {second}")
            }
        };
        assert_eq!(format!("{answer} {} {}", sums(&survivors), sums(&taxonomy)), line);
    }
    assert!(cases.0.is_empty() && expected.lines().count() > 3_000);
}
