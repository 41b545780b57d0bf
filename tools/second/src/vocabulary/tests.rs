//! The vocabulary check, the record call, and the file of their cases.

#![allow(clippy::unwrap_used, clippy::indexing_slicing)]

use crate::tests::paper::{header, names, refusal, vocabularies};
use crate::tests::stored;
use crate::vocabulary::call::find_record;
use crate::vocabulary::editions::{first, holding, other, with_header};
use crate::vocabulary::{all, check_vocabulary, decode, encode, misses, told, Case, Table};

/// The vocabularies of the samples are accepted, with their records counted.
#[test]
fn samples() {
    let counts = vocabularies().map(|vocabulary| check_vocabulary(&vocabulary));
    assert_eq!(counts, [6, 7, 5, 3, 4, 8].map(Ok));
}

/// Sample 10: a header alone is a vocabulary, 512 records pass, 513 give 1.
#[test]
fn sample_10() {
    assert_eq!(check_vocabulary(&header(0)), Ok(1));
    assert_eq!(check_vocabulary(&header(64)), Ok(1));
    assert_eq!(check_vocabulary(&header(65)), Err(refusal(2, 0)));
    assert_eq!(check_vocabulary(&names(511)), Ok(512));
    assert_eq!(check_vocabulary(&names(512)), Err(refusal(1, 0)));
}

/// The record call finds each record of V, and nothing past its end.
#[test]
fn record_call() {
    let [v, ..] = vocabularies();
    let found: Vec<_> = (0..6).map(|number| find_record(&v, number)).collect();
    assert_eq!(found, [0, 8, 16, 24, 32, 40].map(Ok));
    assert_eq!(find_record(&v, 6), Err(refusal(9, 6)));
    assert_eq!(find_record(&v, u32::MAX), Err(refusal(9, 4_294_967_295)));
    assert_eq!(find_record(&v[..47], 0), Err(refusal(1, 0)));
}

/// V has three atoms: edition 2 holds that number in next, and any other is 28 with 3 as its place.
#[test]
fn wrong_counts() {
    let [v, ..] = vocabularies();
    assert_eq!(check_vocabulary(&holding(&v, 3)), Ok(6));
    for held in [0, 1, 2, 4, 5, 6, 256, 259, 768, 65535] {
        assert_eq!(check_vocabulary(&holding(&v, held)), Err(refusal(28, 3)), "{held}");
    }
    let atoms = vocabularies().map(|vocabulary| check_vocabulary(&holding(&vocabulary, 99)));
    assert_eq!(atoms, [3, 3, 2, 1, 0, 4].map(|k| Err(refusal(28, k))));
    assert_eq!(check_vocabulary(&holding(&names(511), 511)), Ok(512));
    assert_eq!(check_vocabulary(&holding(&names(511), 255)), Err(refusal(28, 511)));
    assert_eq!(check_vocabulary(&holding(&names(256), 0)), Err(refusal(28, 256)));
    assert_eq!(find_record(&holding(&v, 9), 5), Ok(40));
    assert_eq!(find_record(&holding(&v, 9), 6), Err(refusal(9, 6)));
}

/// Row 2 has each other second byte, and edition 1 with a next; kind and role count in both editions.
#[test]
fn editions() {
    let [v, ..] = vocabularies();
    let with = |place: usize, value| {
        let mut changed = holding(&v, 9);
        changed[place] = value;
        check_vocabulary(&changed)
    };
    for second in [0, 1, 3, 4, 16, 255] {
        assert_eq!(with(1, second), Err(refusal(2, 0)), "{second}");
        assert_eq!(
            check_vocabulary(&with_header(&v, 1, second.into())).is_ok(),
            second == 0
        );
        assert_eq!(check_vocabulary(&with_header(&v, second, 0)).is_ok(), second == 1);
    }
    assert_eq!(with(0, 17), Err(refusal(2, 0)));
    assert_eq!(with(4, 65), Err(refusal(2, 0)));
    assert_eq!(with(4, 64), Err(refusal(28, 3)));
    // 28 comes after the rows of the records and after 8.
    for (place, value, row, at) in [
        (8, 10, 3, 1),
        (20, 1, 4, 2),
        (34, 4, 5, 4),
        (18, 1, 7, 2),
        (2, 1, 8, 0),
        (46, 5, 8, 5),
    ] {
        assert_eq!(with(place, value), Err(refusal(row, at)));
    }
    assert_eq!(other(&v), holding(&v, 3));
    assert_eq!(other(&holding(&v, 3)), v);
    assert_eq!(first(&holding(&v, 7)), v);
}

/// Each case that was made for one answer gets it, and each refusal is met.
#[test]
fn made_cases() {
    for seed in [None, Some(7)] {
        let planned = all(seed);
        assert_eq!(misses(&planned), Vec::<String>::new());
        let cases: Vec<_> = planned.into_iter().map(|planned| planned.case).collect();
        assert_eq!(Table::of(&cases).never_met(), Vec::<u8>::new());
        let told = told::table(&cases);
        assert!(seed.is_some() || told.faults().is_empty(), "{:?}", told.faults());
    }
}

/// The stored file, read and written again, is the same; as many lines are expected as it has cases.
#[test]
fn round_trip() {
    let file = stored("crates/vocabulary_cases/stdin");
    let cases = decode(&file).unwrap();
    assert_eq!(encode(&cases).unwrap(), file);
    let lines = stored("crates/vocabulary_cases/stdout");
    assert_eq!(lines.iter().filter(|byte| **byte == b'\n').count(), cases.len());
}

/// Made cases are read back as they were written, and a file that ends inside one says in which.
#[test]
fn written_cases() {
    let case = |vocabulary: Vec<u8>, number| Case { vocabulary, number };
    let cases = [
        case(Vec::new(), 0),
        case(names(1), 258),
        case(vec![255; 65535], u32::MAX),
    ];
    let file = encode(&cases).unwrap();
    assert_eq!(file[..6], [0; 6]);
    assert_eq!(file[6..12], [16, 0, 2, 1, 0, 0]);
    assert_eq!(decode(&file).unwrap(), cases);
    assert_eq!(decode(&file[..27]).unwrap_err(), "the file ends inside case 1");
    assert!(encode(&[case(vec![0; 65536], 0)]).is_err());
}
