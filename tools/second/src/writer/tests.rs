//! The writer on buffers worked by hand and on the paper's samples, the cases made, and the file of cases.

#![allow(clippy::unwrap_used, clippy::indexing_slicing)]

mod editions;

use crate::tests::paper::{header, names, refusal, vocabularies};
use crate::tests::stored;
use crate::vocabulary::check_vocabulary;
use crate::vocabulary::editions::{holding, second};
use crate::vocabulary::records::records;
use crate::writer::call::{run, run_by, write, Outcome};
use crate::writer::checks::{fault, shown};
use crate::writer::errors;
use crate::writer::file::Call;
use crate::writer::plan::{anything, call_of, length, refused, Meant, Plan, Planned, Shown};
use crate::writer::rules::Answer;
use crate::writer::{all, decode, encode, lines, Case};

/// What the lent bytes hold before a call.
const FILLING: u8 = 0xA5;

/// A vocabulary with so many free bytes behind it.
fn lent(vocabulary: &[u8], free: usize) -> Vec<u8> {
    [vocabulary, &vec![FILLING; free]].concat()
}

/// A term to be added.
fn term(kind: u8, a: u16, b: u16) -> Call {
    Call::Term { kind, a, b }
}

/// A statement to be added.
fn statement(a: u16, b: u16) -> Call {
    Call::Statement { a, b }
}

/// Makes a call in a buffer; finds the buffer as it was where it is refused.
fn made(buffer: &mut [u8], used: u64, call: Call) -> Answer {
    let before = buffer.to_vec();
    let answer = write(buffer, used, call);
    if answer.is_err() {
        assert_eq!(buffer, before);
    }
    answer
}

/// The answer to an addition to a whole vocabulary with so many free bytes.
fn added(vocabulary: &[u8], free: usize, call: Call) -> Answer {
    made(&mut lent(vocabulary, free), vocabulary.len() as u64, call)
}

/// Making writes eight bytes, a header of edition 2 with k 0; 27 comes before 2, and both have place 0.
#[test]
fn making() {
    let mut buffer = [FILLING; 20];
    assert_eq!(made(&mut buffer, 0, Call::Make { roles: 5 }), Ok(8));
    assert_eq!(buffer[..8], [16, 2, 0, 0, 5, 0, 0, 0]);
    assert_eq!(buffer[8..], [FILLING; 12]);
    let make = |length, roles| made(&mut vec![FILLING; length], 0, Call::Make { roles });
    assert_eq!(make(8, 0), Ok(8));
    assert_eq!(make(8, 64), Ok(8));
    assert_eq!(make(5000, 64), Ok(8));
    assert_eq!(make(8, 65), Err(refusal(2, 0)));
    assert_eq!(make(8, 65_537), Err(refusal(2, 0)));
    assert_eq!(make(8, u32::MAX), Err(refusal(2, 0)));
    assert_eq!(make(7, 65), Err(refusal(27, 0)));
    assert_eq!(make(0, 1), Err(refusal(27, 0)));
}

/// The samples, record by record from an empty vocabulary: byte for byte those of the paper in edition 2, since all their
/// statements are on the chain.
#[test]
fn samples_by_additions() {
    for sample in vocabularies() {
        let mut buffer = vec![FILLING; sample.len() + 3];
        let all = records(&sample);
        let roles = all[0].fields[1].into();
        let mut used = made(&mut buffer, 0, Call::Make { roles }).unwrap();
        for record in &all[1..] {
            let longer = made(&mut buffer, used as u64, call_of(*record));
            assert_eq!(longer, Ok(used + 8));
            used += 8;
        }
        assert_eq!(buffer[..used], second(&sample));
        assert_eq!(buffer[used..], [FILLING; 3]);
    }
}

/// A name and four statements; 2 and 4 are on the chain, 3 leads to 4, 5 leads nowhere. The new one is linked from 4.
#[test]
fn end_of_the_chain() {
    let mut vocabulary = header(0);
    vocabulary[2] = 2;
    for (kind, a, b, next) in [(3, 9, 0, 0), (9, 1, 1, 4), (9, 1, 1, 4), (9, 1, 1, 0), (9, 1, 1, 0)] {
        vocabulary.extend([kind, 0, a, 0, b, 0, next, 0]);
    }
    let mut buffer = lent(&vocabulary, 9);
    assert_eq!(made(&mut buffer, 48, statement(1, 1)), Ok(56));
    let mut expected = vocabulary.clone();
    expected[8 * 4 + 6] = 6;
    expected.extend([9, 0, 1, 0, 1, 0, 0, 0, FILLING]);
    assert_eq!(buffer, expected);
    // With the chain empty the header's A is the link, whatever stands off it.
    vocabulary[2] = 0;
    let mut buffer = lent(&vocabulary, 8);
    assert_eq!(made(&mut buffer, 48, statement(1, 1)), Ok(56));
    vocabulary[2] = 6;
    vocabulary.extend([9, 0, 1, 0, 1, 0, 0, 0]);
    assert_eq!(buffer, vocabulary);
    // A term is not linked.
    let mut buffer = lent(&vocabulary, 8);
    assert_eq!(made(&mut buffer, 56, term(4, 1, 0)), Ok(64));
    vocabulary.extend([4, 0, 1, 0, 0, 0, 0, 0]);
    assert_eq!(buffer, vocabulary);
}

/// The length in use: past the buffer it is 1 before anything else, and so it is under 8, over 4,096 or no multiple of
/// 8. Rows 2 to 8 of what is in use come next.
#[test]
fn bytes_in_use() {
    let [v, ..] = vocabularies();
    let call = |used| made(&mut lent(&v, 8), used, term(0, 0, 0));
    for used in [57, 64, 1 << 32, (1 << 32) + 48, 1 << 63, u64::MAX - 7, u64::MAX] {
        assert_eq!(call(used), Err(refusal(1, 0)), "{used}");
    }
    for used in [0, 7, 9, 47, 49] {
        assert_eq!(call(used), Err(refusal(1, 0)), "{used}");
    }
    // The chain of V leads behind its first five records.
    assert_eq!(call(40), Err(refusal(8, 0)));
    assert_eq!(call(48), Err(refusal(3, 6)));
    assert_eq!(added(&names(512), 16, term(1, 0, 0)), Err(refusal(1, 0)));
    assert_eq!(added(&header(65), 0, term(1, 0, 0)), Err(refusal(2, 0)));
    assert_eq!(made(&mut [], 0, statement(1, 1)), Err(refusal(1, 0)));
}

/// 27 comes before the new record's own rows, at under 8 free bytes or 512 records, with the record count as its place.
#[test]
fn room() {
    let [v, ..] = vocabularies();
    for free in 0..8 {
        assert_eq!(added(&v, free, statement(1, 2)), Err(refusal(27, 6)));
        assert_eq!(added(&v, free, term(9, 0, 0)), Err(refusal(27, 6)));
    }
    assert_eq!(added(&v, 8, statement(1, 2)), Ok(56));
    assert_eq!(added(&v, 5000, statement(1, 2)), Ok(56));
    assert_eq!(added(&names(511), 8, term(1, 0, 0)), Err(refusal(27, 512)));
    assert_eq!(added(&names(511), 0, term(0, 0, 0)), Err(refusal(27, 512)));
    assert_eq!(added(&names(510), 8, term(1, 0, 0)), Ok(4096));
    assert_eq!(added(&names(510), 108, term(1, 0, 0)), Ok(4096));
}

/// The new record's own rows in V, where 5 is a statement: 3 for kinds that are no term's, then 4, 5, 6, 7.
#[test]
fn own_rows() {
    let [v, _, third, ..] = vocabularies();
    let answers = [
        (term(0, 0, 0), Err(refusal(3, 6))),
        (term(9, 1, 2), Err(refusal(3, 6))),
        (term(9, 5, 5), Err(refusal(3, 6))),
        (term(10, 0, 0), Err(refusal(3, 6))),
        (term(255, 0, 0), Err(refusal(3, 6))),
        (term(1, 1, 0), Err(refusal(4, 6))),
        (term(2, 0, 256), Err(refusal(4, 6))),
        (term(3, 1, 1), Err(refusal(4, 6))),
        (term(3, 1, 0), Err(refusal(7, 6))),
        (term(3, 4, 0), Ok(56)),
        (term(3, 257, 0), Ok(56)),
        (term(4, 6, 1), Err(refusal(4, 6))),
        (term(4, 6, 0), Err(refusal(5, 6))),
        (term(4, 5, 0), Err(refusal(5, 6))),
        (term(4, 0, 0), Err(refusal(5, 6))),
        (term(4, 4, 0), Ok(56)),
        (term(5, 1, 7), Err(refusal(5, 6))),
        (term(6, 257, 1), Err(refusal(5, 6))),
        (term(7, 0, 5), Err(refusal(5, 6))),
        (term(7, 0, 1), Err(refusal(6, 6))),
        (statement(4, 5), Err(refusal(5, 6))),
        (statement(6, 1), Err(refusal(5, 6))),
        (statement(1, 0), Err(refusal(5, 6))),
        (statement(3, 4), Ok(56)),
    ];
    for (call, answer) in answers {
        assert_eq!(added(&v, 8, call), answer, "{call:?}");
    }
    assert_eq!(added(&third, 8, term(8, 0, 1)), Ok(48));
    assert_eq!(added(&third, 8, term(8, 1, 1)), Err(refusal(6, 5)));
}

/// A case of an addition to V, with eight free bytes.
fn case_of(call: Call, meant: Meant) -> Planned {
    let [v, ..] = vocabularies();
    let case = Case {
        used: v.len() as u64,
        content: v,
        behind: 8,
        seed: 3,
        call,
    };
    Planned { case, meant }
}

/// A case whose answer or whose bytes are not what they have to be is found out.
#[test]
fn faults_are_found() {
    let found = |planned: &Planned, change: &dyn Fn(&mut Outcome)| {
        let mut outcome = run(&planned.case);
        change(&mut outcome);
        fault(planned, &outcome)
    };
    let is = |text: &str| Some(text.to_string());
    let right = case_of(statement(3, 4), length(56));
    assert_eq!(found(&right, &|_| ()), None);
    let other = "the buffer is not that with the new record";
    for place in [0, 2, 46, 47, 48, 50, 55] {
        assert_eq!(found(&right, &|outcome| outcome.buffer[place] ^= 1), is(other));
    }
    let said = "the reader says something else of the new record";
    let any = case_of(statement(3, 4), anything());
    assert_eq!(found(&any, &|outcome| outcome.answer = Ok(48)), is(said));
    assert_eq!(
        found(&any, &|outcome| outcome.answer = Err(refusal(5, 6))),
        is("a refusal leaves other bytes")
    );
    let wrong = case_of(term(9, 3, 4), refused(3, 6));
    assert_eq!(found(&wrong, &|_| ()), None);
    assert!(found(&wrong, &|outcome| outcome.answer = Err(refusal(4, 6))).is_some_and(|text| text.contains("meant")));
    let wrong = case_of(term(4, 6, 0), anything());
    assert_eq!(found(&wrong, &|_| ()), None);
    assert_eq!(found(&wrong, &|outcome| outcome.answer = Err(refusal(5, 5))), is(said));
    let shows = case_of(
        term(1, 0, 0),
        Meant::Shows(Shown {
            edition: 1,
            roles: 0,
            additions: Vec::new(),
        }),
    );
    assert!(found(&shows, &|_| ()).is_some_and(|text| text.contains("other additions")));
    let mut make = case_of(Call::Make { roles: 7 }, anything());
    assert_eq!(found(&make, &|_| ()), None);
    let unmade = "what was made is no empty vocabulary of edition 2, or something behind it changed";
    assert_eq!(found(&make, &|outcome| outcome.buffer[1] = 1), is(unmade));
    assert_eq!(found(&make, &|outcome| outcome.buffer[4] = 8), is(unmade));
    assert_eq!(found(&make, &|outcome| outcome.buffer[6] = 1), is(unmade));
    assert_eq!(found(&make, &|outcome| outcome.buffer[9] ^= 1), is(unmade));
    make.case.call = Call::Make { roles: 65 };
    assert_eq!(found(&make, &|_| ()), None);
    assert_eq!(
        found(&make, &|outcome| outcome.answer = Err(refusal(27, 0))),
        is("nothing is wrong")
    );
}

/// Reading a buffer shows its additions in their order; a statement off the chain would not be shown.
#[test]
fn additions_are_shown() {
    let [_, sample, ..] = vocabularies();
    let read = |buffer: &[u8]| {
        let answer = Ok(buffer.len());
        shown(&Outcome {
            answer,
            buffer: buffer.to_vec(),
        })
    };
    let names = [1, 2, 3].map(|label| term(3, label, 0));
    let additions = [&names[..], &[term(5, 1, 2), statement(4, 3), statement(3, 4)]].concat();
    let shown = |edition| Shown {
        edition,
        roles: 0,
        additions: additions.clone(),
    };
    assert_eq!(read(&sample), Some(shown(1)));
    assert_eq!(read(&second(&sample)), Some(shown(2)));
    assert_eq!(read(&holding(&sample, 4)), None);
    let mut cut = sample.clone();
    cut[8 * 5 + 6] = 0;
    assert_eq!(check_vocabulary(&cut), Ok(7));
    assert_eq!(read(&cut), None);
    assert_eq!(read(&sample[..48]), None);
}

/// The cases of all groups get what they were made for, and bear it out, whatever the seed. The last case of a sequence
/// up to 512 records shows 511 additions.
#[test]
fn planned_cases() {
    for seed in [None, Some(7)] {
        let cases = all(seed);
        for planned in &cases {
            assert_eq!(fault(planned, &run(&planned.case)), None);
        }
        let longest = cases.iter().filter_map(|planned| match &planned.meant {
            Meant::Shows(shown) => Some(shown.additions.len()),
            Meant::Line(_) => None,
        });
        assert_eq!(longest.max(), Some(511));
    }
    let samples = Plan::made(1, Plan::samples);
    assert_eq!(samples.len(), 6 + 3);
    let chains = Plan::made(1, Plan::small_chains);
    let statements = chains
        .iter()
        .filter(|planned| matches!(planned.case.call, Call::Statement { .. }));
    assert_eq!(statements.count(), 1 + 2 + 6 + 24 + 120);
}

/// Each wrong writer does otherwise with some case of a smaller set than the stored one.
#[test]
fn errors_are_told() {
    let cases = Plan::made(1, |plan| {
        plan.made_vocabularies();
        plan.random_making();
        plan.small_chains();
        plan.wrong_lengths();
        plan.free_bytes();
        plan.full_vocabularies();
        plan.own_rows();
        plan.pairs_of_rows();
        plan.other_kinds();
        plan.long_chains();
        plan.tails();
        plan.mixtures();
        plan.editions();
    });
    let outcomes: Vec<_> = cases.iter().map(|planned| run(&planned.case)).collect();
    for (name, wrong) in errors::all() {
        let mut pairs = cases.iter().zip(&outcomes);
        assert!(
            pairs.any(|(planned, right)| run_by(*wrong, &planned.case) != *right),
            "{name}"
        );
    }
}

/// The stored file, read and written again, is the same; as many lines are expected as it has cases.
#[test]
fn round_trip() {
    let file = stored("crates/writer_cases/stdin");
    let cases = decode(&file).unwrap();
    assert_eq!(encode(&cases).unwrap(), file);
    let expected = stored("crates/writer_cases/stdout");
    assert_eq!(expected.iter().filter(|byte| **byte == b'\n').count(), cases.len());
}

/// A case is read back as it was written, a file that ends inside one says in which, and a line is as README.md says.
#[test]
fn written_cases() {
    let case = |call, used| Case {
        content: header(2),
        behind: 10,
        seed: 250,
        call,
        used,
    };
    let cases = [
        case(Call::Make { roles: 0x0102_0304 }, 0),
        case(term(5, 0x0102, 0x0304), 0x0102_0304_0506_0708),
        case(statement(258, 3), u64::MAX),
    ];
    let file = encode(&cases).unwrap();
    assert_eq!(file[..19], [8, 0, 10, 0, 250, 0, 0, 4, 3, 2, 1, 0, 0, 0, 0, 0, 0, 0, 0]);
    assert_eq!(
        file[27..46],
        [8, 0, 10, 0, 250, 1, 5, 2, 1, 4, 3, 8, 7, 6, 5, 4, 3, 2, 1]
    );
    assert_eq!(
        file[54..73],
        [8, 0, 10, 0, 250, 2, 0, 2, 1, 3, 0, 255, 255, 255, 255, 255, 255, 255, 255]
    );
    assert_eq!(decode(&file).unwrap(), cases);
    assert_eq!(decode(&file[..50]).unwrap_err(), "the file ends inside case 1");
    // Byte 8 is 7 * 8 + 250 modulo 256, and so on up to byte 17.
    let behind = [50, 57, 64, 71, 78, 85, 92, 99, 106, 113];
    assert_eq!(cases[0].buffer(), [&header(2)[..], &behind].concat());
    // The second byte, B's low byte and next's are not 0 before the call; the last two bytes stay.
    assert_eq!(
        lines(&[case(term(3, 57, 0), 8)]),
        "length 16 8:0300390000000000 298 1144\n"
    );
    assert_eq!(
        lines(&[case(term(1, 0, 0), 8)]),
        "length 16 8:0100000000000000 239 668\n"
    );
    assert_eq!(
        lines(&[case(Call::Make { roles: 3 }, 0)]),
        "length 8 1:02 4:03 836 4269\n"
    );
    assert_eq!(lines(&[case(Call::Make { roles: 2 }, 0)]), "length 8 1:02 835 4255\n");
    assert_eq!(lines(&[case(statement(1, 1), 8)]), "refused 5 1 - 834 4238\n");
}
