//! The choice of cases: those that are new, and every so many.

use crate::select::{every, new};
use crate::tests::paper::{header, names};
use crate::{classification, comparison, script, vocabulary, writer};

/// The file of vocabulary cases with some record numbers of a header alone.
fn file(numbers: &[u32]) -> Vec<u8> {
    let case = |number: &u32| vocabulary::Case {
        vocabulary: header(0),
        number: *number,
    };
    vocabulary::encode(&numbers.iter().map(case).collect::<Vec<_>>()).unwrap()
}

/// Stored cases go, and of equal ones all but the first; the order stays.
#[test]
fn new_cases() {
    let made = file(&[3, 1, 4, 1, 5, 9, 2, 6, 5, 3]);
    assert_eq!(
        new("vocabulary", &file(&[4, 2]), &made).unwrap(),
        file(&[3, 1, 5, 9, 6])
    );
    assert_eq!(new("vocabulary", &[], &made).unwrap(), file(&[3, 1, 4, 5, 9, 2, 6]));
    assert_eq!(new("vocabulary", &made, &made).unwrap(), []);
}

/// Comparisons that differ in nothing but what the lent bytes hold are one case; other bytes lent are another.
#[test]
fn new_comparisons() {
    let case = |lent, seed| comparison::Case {
        vocabulary: names(2),
        a: 1,
        b: 2,
        lent,
        seed,
    };
    let file = |cases: &[comparison::Case]| comparison::encode(cases).unwrap();
    let made = file(&[case(512, 1), case(512, 2), case(513, 1)]);
    assert_eq!(
        new("comparison", &[], &made).unwrap(),
        file(&[case(512, 1), case(513, 1)])
    );
    assert_eq!(
        new("comparison", &file(&[case(512, 9)]), &made).unwrap(),
        file(&[case(513, 1)])
    );
}

/// Classifications that differ in nothing but what the lent bytes hold are one case; other bytes lent for either buffer
/// are another.
#[test]
fn new_classifications() {
    let case = |lent, seed| classification::Case {
        vocabulary: names(2),
        lent,
        seed,
    };
    let file = |cases: &[classification::Case]| classification::encode(cases).unwrap();
    let made = file(&[
        case([512, 144], 1),
        case([512, 144], 2),
        case([513, 144], 1),
        case([512, 145], 1),
    ]);
    assert_eq!(
        new("classification", &file(&[case([513, 144], 9)]), &made).unwrap(),
        file(&[case([512, 144], 1), case([512, 145], 1)])
    );
}

/// A script case is told from others by its vocabulary and by its script.
#[test]
fn new_scripts() {
    let case = |vocabulary: Vec<u8>, length| script::Case {
        vocabulary,
        script: vec![0; length],
    };
    let file = |cases: &[script::Case]| script::encode(cases).unwrap();
    let made = file(&[
        case(names(1), 16),
        case(names(1), 17),
        case(names(2), 16),
        case(names(1), 16),
    ]);
    assert_eq!(
        new("script", &file(&[case(names(1), 17)]), &made).unwrap(),
        file(&[case(names(1), 16), case(names(2), 16)])
    );
}

/// Writer cases that differ in nothing but what the bytes behind hold are one case; other lengths in use, more bytes
/// behind or another call are others.
#[test]
fn new_writings() {
    let case = |behind, seed, used, a| writer::Case {
        content: names(2),
        behind,
        seed,
        call: writer::Call::Statement { a, b: 1 },
        used,
    };
    let file = |cases: &[writer::Case]| writer::encode(cases).unwrap();
    let made = file(&[
        case(8, 1, 24, 1),
        case(8, 2, 24, 1),
        case(9, 1, 24, 1),
        case(8, 1, 16, 1),
        case(8, 1, 24, 2),
    ]);
    assert_eq!(
        new("writer", &file(&[case(9, 9, 24, 1)]), &made).unwrap(),
        file(&[case(8, 1, 24, 1), case(8, 1, 16, 1), case(8, 1, 24, 2)])
    );
}

/// The first case and every third after it; a step of 1, and of 0, keeps all.
#[test]
fn every_case() {
    let made = file(&[0, 1, 2, 3, 4, 5, 6]);
    assert_eq!(every("vocabulary", "3", &made).unwrap(), file(&[0, 3, 6]));
    assert_eq!(every("vocabulary", "7", &made).unwrap(), file(&[0]));
    assert_eq!(every("vocabulary", "1", &made).unwrap(), made);
    assert_eq!(every("vocabulary", "0", &made).unwrap(), made);
    assert_eq!(every("vocabulary", "3", &[]).unwrap(), []);
}

/// What is wrong with a name, a step or a file is said.
#[test]
fn wrong_choices() {
    let made = file(&[0, 1]);
    let ends = "the file ends inside case 1";
    assert_eq!(every("vocabulary", "1", &made[..made.len() - 1]).unwrap_err(), ends);
    assert_eq!(new("vocabulary", &made[..made.len() - 1], &made).unwrap_err(), ends);
    assert_eq!(every("vocabulary", "x", &made).unwrap_err(), "a step is a number");
    assert_eq!(
        new("vectors", &[], &made).unwrap_err(),
        "there are no cases by the name vectors"
    );
}
