//! The comparison on the paper's samples, the cases made of them, and the file of cases.

#![allow(clippy::unwrap_used, clippy::indexing_slicing)]

use crate::comparison::call::{compare, Compared, WRITTEN};
use crate::comparison::checks::fault;
use crate::comparison::counts::{lowered, COUNTS};
use crate::comparison::errors::ERRORS;
use crate::comparison::plan::{Plan, Planned};
use crate::comparison::print::run;
use crate::comparison::{decode, encode, lines, Case, Types};
use crate::tests::paper::{header, names, refusal, vocabularies};
use crate::tests::stored;
use crate::vocabulary::editions::{holding, second};
use crate::vocabulary::records::records;

/// What the lent bytes hold before a call.
const FILLING: u8 = 0xA5;

/// Compares two terms, with 600 bytes lent; answers what is written, too, and finds the other bytes as they were.
fn compared(vocabulary: &[u8], a: u32, b: u32) -> (Compared, Vec<u8>) {
    let mut buffer = [FILLING; 600];
    let answer = compare(vocabulary, a, b, &mut buffer).unwrap();
    assert_eq!(buffer[WRITTEN..], [FILLING; 600 - WRITTEN]);
    (answer, buffer[..WRITTEN].to_vec())
}

/// Samples 1 to 6: the element, how many survivors and rounds there are, and the first two bytes.
#[test]
fn samples_1_to_6() {
    let figures = [
        ([4, 3], Some(4), 7, 0, [247, 0]),
        ([4, 3], None, 4, 0, [135, 0]),
        ([1, 4], Some(3), 3, 0, [13, 0]),
        ([1, 2], None, 1, 1, [1, 0]),
        ([1, 2], None, 0, 0, [0, 0]),
        ([1, 7], Some(0), 8, 0, [245, 160]),
    ];
    for (vocabulary, ([a, b], element, survivors, rounds, bytes)) in vocabularies().iter().zip(figures) {
        let (answer, written) = compared(vocabulary, a, b);
        assert_eq!(
            (answer.element, answer.survivors.len(), answer.rounds),
            (element, survivors, rounds)
        );
        assert_eq!(written[..2], bytes);
        assert_eq!(written[2..], [0; WRITTEN - 2]);
    }
}

/// Sample 10: each query of a header alone gives 10; 12 atoms compare, 13 give 11; 511 bytes lent give 12. What is lent
/// stays as it was.
#[test]
fn sample_10() {
    let refused = |vocabulary: &[u8], a, b, lent| {
        let mut buffer = vec![FILLING; lent];
        let answer = compare(vocabulary, a, b, &mut buffer).unwrap_err();
        assert_eq!(buffer, vec![FILLING; lent]);
        answer
    };
    for query in [0, 1, 2, 511, 65536, u32::MAX] {
        assert_eq!(refused(&header(64), query, 1, 512), refusal(10, query as usize));
    }
    let (twelve, _) = compared(&names(12), 1, 2);
    assert_eq!((twelve.element, twelve.survivors.len()), (Some(1), 4096));
    assert_eq!(refused(&names(13), 1, 2, 512), refusal(11, 13));
    assert_eq!(refused(&names(12), 1, 2, 511), refusal(12, 0));
    assert_eq!(refused(&names(13), 1, 2, 511), refusal(11, 13));
    assert_eq!(refused(&names(13), 1, 14, 511), refusal(10, 14));
}

/// Each sample has the same answer and the same bytes in edition 2; a wrong k is 28, before 10, 11 and 12.
#[test]
fn editions() {
    for vocabulary in vocabularies() {
        assert_eq!(compared(&second(&vocabulary), 1, 2), compared(&vocabulary, 1, 2));
    }
    let refused = |vocabulary: &[u8], a, lent| {
        let mut buffer = vec![FILLING; lent];
        let answer = compare(vocabulary, a, 1, &mut buffer).unwrap_err();
        assert_eq!(buffer, vec![FILLING; lent]);
        answer
    };
    assert_eq!(refused(&second(&names(13)), 1, 512), refusal(11, 13));
    assert_eq!(refused(&second(&names(12)), 0, 512), refusal(10, 0));
    for (count, held) in [(12, 11), (12, 0), (13, 12), (13, 269)] {
        for (a, lent) in [(1, 512), (0, 512), (1, 511), (99, 0)] {
            assert_eq!(
                refused(&holding(&names(count), held), a, lent),
                refusal(28, count.into())
            );
        }
    }
}

/// The cases made of the samples: the six with three numbers of lent bytes, and those of sample 10. Each is made for an
/// answer, but for 15 where enough bytes are lent to samples that have theirs already; each gets it.
#[test]
fn planned_samples() {
    let cases = Plan::made(1, Plan::samples);
    let meant = cases.iter().filter(|planned| !planned.meant.is_empty());
    assert_eq!((cases.len(), meant.count()), (80, 65));
    for planned in &cases {
        assert_eq!(fault(planned, &run(&planned.case)), None);
    }
    let made: Vec<&[u8]> = cases.iter().take(6).map(|p| p.case.vocabulary.as_slice()).collect();
    assert_eq!(made, vocabularies());
}

/// A case whose answer is not the one it was made for, or whose bytes are not its interpretation, is found out.
#[test]
fn faults_are_found() {
    let mut cases = Plan::made(1, Plan::samples);
    let mut first = cases.swap_remove(0);
    let mut outcome = run(&first.case);
    outcome.buffer[0] ^= 1;
    first.meant = "different 4 7 0".to_string();
    let other = "the bytes hold other elements than the survivors";
    assert_eq!(fault(&first, &outcome), Some(other.to_string()));
    first.meant = "equal".to_string();
    assert!(fault(&first, &run(&first.case)).is_some_and(|text| text.contains("meant equal")));
    first.meant = String::new();
    let mut refused = run(&first.case);
    refused.answer = Err(refusal(12, 0));
    let other = "is another answer in the other edition";
    assert_eq!(fault(&first, &refused), Some(other.to_string()));
}

/// The cases of the samples and the families that are answered, of up to 6 atoms: types, terms and answer.
fn answered() -> Vec<(Types, u32, u32, Compared)> {
    let cases = Plan::made(1, |plan| {
        plan.samples();
        plan.families();
    });
    let answer = |planned: &Planned| {
        let Case { vocabulary, a, b, .. } = &planned.case;
        let right = run(&planned.case).answer.ok()?;
        let types = Types::of(records(vocabulary));
        (types.count() <= 64).then_some((types, *a, *b, right))
    };
    cases.iter().filter_map(answer).collect()
}

/// Each wrong comparison answers otherwise in some case.
#[test]
fn errors_are_told() {
    let cases = answered();
    let told = |wrong: fn(&Types, u32, u32) -> Compared| {
        let mut all = cases.iter();
        all.any(|(types, a, b, right)| wrong(types, *a, *b) != *right)
    };
    let untold = ERRORS.iter().filter(|(_, wrong)| !told(*wrong));
    assert_eq!(untold.map(|(name, _)| *name).collect::<Vec<_>>(), Vec::<&str>::new());
}

/// Lowered by 1 for each type that fails, the count is right; each wrong count is another in some case.
#[test]
fn counts_are_told() {
    let cases = answered();
    for (types, _, _, right) in &cases {
        let count = lowered(types, |roles| usize::from(!roles.is_empty()));
        assert_eq!(count, right.survivors.len());
    }
    let told = |wrong: fn(&Types) -> usize| {
        let mut all = cases.iter();
        all.any(|(types, _, _, right)| wrong(types) != right.survivors.len())
    };
    let untold = COUNTS.iter().filter(|(_, wrong)| !told(*wrong));
    assert_eq!(untold.map(|(name, _)| *name).collect::<Vec<_>>(), Vec::<&str>::new());
}

/// The stored file, read and written again, is the same; as many lines are expected as it has cases.
#[test]
fn round_trip() {
    let file = stored("crates/comparison_cases/stdin");
    let cases = decode(&file).unwrap();
    assert_eq!(encode(&cases).unwrap(), file);
    let expected = stored("crates/comparison_cases/stdout");
    assert_eq!(expected.iter().filter(|byte| **byte == b'\n').count(), cases.len());
}

/// A case is read back as it was written, a file that ends inside one says in which, and a line is as README.md says.
#[test]
fn written_cases() {
    let case = |lent, seed| Case {
        vocabulary: vocabularies()[0].clone(),
        a: 4,
        b: 3,
        lent,
        seed,
    };
    let cases = [case(0, 0), case(258, 255), case(513, 9)];
    let file = encode(&cases).unwrap();
    assert_eq!(file[..13], [48, 0, 4, 0, 0, 0, 3, 0, 0, 0, 0, 0, 0]);
    assert_eq!(decode(&file).unwrap(), cases);
    assert_eq!(decode(&file[..70]).unwrap_err(), "the file ends inside case 1");
    assert_eq!(case(4, 250).buffer(), [250, 1, 8, 15]);
    // Byte 512 is 7 * 512 + 9, modulo 256, and stands alone after byte 0, which is 247.
    let line = "different 4 7 0 f7 256 126720\n";
    assert_eq!(lines(&cases[2..]), line);
    assert_eq!(lines(&[case(2, 3)]), "refused 12 0 13 16\n");
}
