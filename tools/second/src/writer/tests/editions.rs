//! The header's k under the writer, worked by hand, and small additions to both editions.

use super::{added, lent, made, statement, term};
use crate::tests::paper::{names, refusal, vocabularies};
use crate::vocabulary::editions::{holding, second};
use crate::writer::call::run;
use crate::writer::checks::fault;
use crate::writer::plan::{anything, Planned};
use crate::writer::Case;

/// V in edition 2, which has three atoms: the header's next is byte 6. An atom raises it, as another term, a statement
/// and a refused record do not; in edition 1 it stays 0.
#[test]
fn atoms_are_counted() {
    let [v, _, third, ..] = vocabularies();
    let next = |vocabulary: &[u8], call, refused: Option<u8>| {
        let mut buffer = lent(vocabulary, 8);
        let answer = made(&mut buffer, vocabulary.len() as u64, call);
        assert_eq!(answer.err().map(|refusal| refusal.number), refused, "{call:?}");
        assert_eq!(buffer[..2], vocabulary[..2]);
        [buffer[6], buffer[7]]
    };
    let v_2 = second(&v);
    assert_eq!(v_2[..8], [16, 2, 5, 0, 0, 0, 3, 0]);
    assert_eq!(next(&v_2, term(3, 9, 0), None), [4, 0]);
    assert_eq!(next(&v, term(3, 9, 0), None), [0, 0]);
    for call in [term(1, 0, 0), term(4, 1, 0), term(6, 1, 2), statement(1, 2)] {
        assert_eq!(next(&v_2, call, None), [3, 0]);
    }
    assert_eq!(next(&v_2, term(3, 1, 0), Some(7)), [3, 0]);
    assert_eq!(next(&v_2, term(7, 0, 1), Some(6)), [3, 0]);
    let third_2 = second(&third);
    assert_eq!(next(&third_2, term(7, 0, 1), None), [3, 0]);
    assert_eq!(next(&third_2, term(8, 0, 2), None), [3, 0]);
    assert_eq!(next(&third_2, term(8, 0, 3), Some(5)), [2, 0]);
    for (count, raised) in [(254, [255, 0]), (255, [0, 1]), (256, [1, 1]), (510, [255, 1])] {
        assert_eq!(next(&second(&names(count)), term(3, 65535, 0), None), raised);
    }
    let mut full = lent(&v_2, 7);
    assert_eq!(made(&mut full, 48, term(3, 9, 0)), Err(refusal(27, 6)));
    assert_eq!(full[6], 3);
}

/// A wrong k of the bytes in use is 28, with the true k as its place: before 27 and the new record's own rows, after 8.
#[test]
fn wrong_count_in_use() {
    let [v, ..] = vocabularies();
    for held in [0, 2, 4, 259, 768, 65535] {
        let wrong = holding(&v, held);
        for (free, call) in [
            (8, term(1, 0, 0)),
            (7, term(1, 0, 0)),
            (8, term(0, 0, 0)),
            (0, statement(9, 9)),
        ] {
            assert_eq!(added(&wrong, free, call), Err(refusal(28, 3)));
        }
        let mut broken = wrong.clone();
        broken[2] = 4;
        assert_eq!(added(&broken, 8, term(1, 0, 0)), Err(refusal(8, 0)));
    }
}

/// Every addition of small numbers to sample 3, which has a name, a restriction, a statement and bottom: the reader says
/// the same of what would be in use, and what is not refused is added as it has to be.
#[test]
fn small_additions() {
    let [_, _, third, ..] = vocabularies();
    for vocabulary in [second(&third), third] {
        small_additions_to(&vocabulary);
    }
}

/// Every addition of small numbers to a vocabulary of these records.
fn small_additions_to(third: &[u8]) {
    let mut answers = [0; 8];
    for [call, a, b] in (0..12 * 7 * 7).map(|n| [n / 49, n / 7 % 7, n % 7]) {
        let call = match call {
            11 => statement(a, b),
            kind => term(kind as u8, a, b),
        };
        let case = Case {
            content: third.to_vec(),
            behind: 9,
            seed: 1,
            call,
            used: third.len() as u64,
        };
        let planned = Planned {
            case,
            meant: anything(),
        };
        let outcome = run(&planned.case);
        assert_eq!(fault(&planned, &outcome), None, "{call:?}");
        answers[outcome.answer.map_or_else(|refusal| usize::from(refusal.number), |_| 0)] += 1;
    }
    // Three terms stand there, 1, 2 and 4, and one role. Let in are top, bottom, the names 0 and 2 to 6, three
    // complements, nine of both and of either, three of each restriction, nine statements.
    assert_eq!(answers[0], 1 + 1 + 6 + 3 + 9 + 9 + 3 + 3 + 9);
    // Kinds 0, 9 and 10; fields of top, bottom, names and complements; then operands of a complement, of both, of
    // either, of statements and of restrictions; other roles of a term; the label 1.
    assert_eq!(answers[3], 3 * 49);
    assert_eq!(answers[4], 48 + 48 + 42 + 42);
    assert_eq!(answers[5], 4 + 3 * 40 + 2 * 28);
    assert_eq!(answers[6], 2 * 6 * 3);
    assert_eq!(answers[7], 1);
}
