//! The classification on the paper's samples and on tables worked by hand, the cases made, and the file of cases.

#![allow(clippy::unwrap_used, clippy::indexing_slicing)]

use crate::classification::call::{classify, Classified};
use crate::classification::checks::fault;
use crate::classification::elimination::rows;
use crate::classification::errors::{CALLS, TABLES, WIDE};
use crate::classification::plan::{Meant, Plan, Planned};
use crate::classification::print::run;
use crate::classification::small::all_within;
use crate::classification::stated::{Node, Stated};
use crate::classification::table::{told_by_call, told_by_table, told_by_wide};
use crate::classification::taxonomy::TABLE_BYTES;
use crate::classification::{decode, encode, lines, Case};
use crate::comparison::{Terms, WRITTEN};
use crate::random::Random;
use crate::tests::paper::{header, names, refusal, vocabularies};
use crate::tests::stored;
use crate::vocabulary::editions::{holding, second};
use crate::vocabulary::records::records;
use std::collections::BTreeSet;

/// What the lent bytes hold before a call.
const FILLING: u8 = 0xA5;

/// Classifies names, with 600 and 200 bytes lent; finds the table written, and the bytes behind both as they were.
fn classified(vocabulary: &[u8]) -> Classified {
    let (mut survivors, mut taxonomy) = ([FILLING; 600], [FILLING; 200]);
    let answer = classify(vocabulary, &mut survivors, &mut taxonomy).unwrap();
    assert_eq!(survivors[WRITTEN..], [FILLING; 600 - WRITTEN]);
    assert_eq!(taxonomy[TABLE_BYTES..], [FILLING; 200 - TABLE_BYTES]);
    assert_eq!(taxonomy[..TABLE_BYTES], answer.table);
    answer
}

/// A vocabulary of some names and of statements, by the places of their two terms: names from 1 on, then top and
/// bottom.
fn stated(count: usize, statements: &[[u16; 2]]) -> Vec<u8> {
    let mut terms = Terms::new(0);
    terms.name_list(count);
    terms.top();
    terms.bottom();
    for [a, b] in statements {
        terms.within(*a, *b);
    }
    terms.bytes()
}

/// Samples 1 to 6: the survivors and rounds are the comparison's. In the second 3 equals 1 and 2, so that it lies
/// within both; samples 4 and 5 have no name.
#[test]
fn samples_1_to_6() {
    let figures = [
        (7, 0, "200 020 002"),
        (4, 0, "200 020 112"),
        (3, 0, "2"),
        (1, 1, ""),
        (0, 0, ""),
        (8, 0, "20 02"),
    ];
    for (vocabulary, (survivors, rounds, text)) in vocabularies().iter().zip(figures) {
        let answer = classified(vocabulary);
        assert_eq!((answer.survivors.len(), answer.rounds), (survivors, rounds));
        assert_eq!(answer.table, rows(text));
    }
}

/// Tables worked by hand: a chain; a chain with the statement that follows; a diamond; equal names below two equal
/// ones; an empty name below all; a name that is everything above all; no survivor; no name.
#[test]
fn worked_by_hand() {
    let tables: [(usize, &[[u16; 2]], &str); 8] = [
        (3, &[[1, 2], [2, 3]], "210 021 002"),
        (3, &[[1, 2], [2, 3], [1, 3]], "210 021 002"),
        (4, &[[1, 2], [1, 3], [2, 4], [3, 4]], "2110 0201 0021 0002"),
        (4, &[[4, 2], [2, 4], [4, 1], [1, 3], [3, 1]], "2020 1212 2020 1212"),
        (3, &[[2, 5]], "200 121 002"),
        (3, &[[4, 2]], "210 020 012"),
        (2, &[[3, 4]], "22 22"),
        (0, &[], ""),
    ];
    for (count, statements, text) in tables {
        assert_eq!(classified(&stated(count, statements)).table, rows(text), "{text}");
    }
}

/// A name that lies within another because of what a round removed: 2 has some 1, which is within bottom.
#[test]
fn by_rounds() {
    let mut terms = Terms::new(1);
    let [first, second, _] = terms.names();
    let bottom = terms.bottom();
    let some = terms.some(0, first);
    terms.within(first, bottom);
    terms.within(second, some);
    let answer = classified(&terms.bytes());
    assert_eq!((answer.survivors, answer.rounds), (vec![0, 4], 1));
    assert_eq!(answer.table, rows("221 221 002"));
}

/// Rows are as long as there are names, names stand in record order, whatever their labels, and a name's bit is that of
/// its atom: here the second and the third of four atoms, of which the second lies within the first.
#[test]
fn names_among_restrictions() {
    let mut terms = Terms::new(1);
    let top = terms.top();
    terms.some(0, top);
    let above = terms.push(3, 9, 0);
    let below = terms.push(3, 4, 0);
    terms.all(0, below);
    terms.within(below, above);
    assert_eq!(classified(&terms.bytes()).table, rows("20 12"));
}

/// 13 atoms give 11, 511 bytes for the survivors 12, 143 for the taxonomy 26, in this order. What is lent stays as it
/// Each sample has the same answer in edition 2; a wrong k is 28, before 11, 12 and 26, and nothing is written.
#[test]
fn editions() {
    for vocabulary in vocabularies() {
        assert_eq!(classified(&second(&vocabulary)), classified(&vocabulary));
    }
    for (count, held) in [(2, 1), (12, 0), (13, 12), (13, 269)] {
        for lent in [[512, 144], [511, 144], [512, 143], [0, 0]] {
            let [mut survivors, mut taxonomy] = lent.map(|length| vec![FILLING; length]);
            let answer = classify(&holding(&names(count), held), &mut survivors, &mut taxonomy);
            assert_eq!(answer, Err(refusal(28, count.into())));
            assert_eq!([survivors, taxonomy], lent.map(|length| vec![FILLING; length]));
        }
    }
}

/// was.
#[test]
fn refusals() {
    let refused = |vocabulary: &[u8], first, second| {
        let mut buffers = [vec![FILLING; first], vec![FILLING; second]];
        let [survivors, taxonomy] = &mut buffers;
        let answer = classify(vocabulary, survivors, taxonomy).unwrap_err();
        assert_eq!(buffers, [vec![FILLING; first], vec![FILLING; second]]);
        answer
    };
    assert_eq!(refused(&names(13), 0, 0), refusal(11, 13));
    assert_eq!(refused(&names(12), 511, 143), refusal(12, 0));
    assert_eq!(refused(&names(12), 511, 144), refusal(12, 0));
    assert_eq!(refused(&header(0), 512, 143), refusal(26, 0));
    assert_eq!(refused(&header(0), 512, 0), refusal(26, 0));
    assert_eq!(refused(&header(65), 0, 0), refusal(2, 0));
    assert_eq!(refused(&[], 512, 144), refusal(1, 0));
    let twelve = classified(&names(12));
    assert_eq!(twelve.survivors.len(), 4096);
    let diagonal = (0..144).map(|place| if place % 13 == 0 { '2' } else { '0' });
    assert_eq!(twelve.table, rows(&diagonal.collect::<String>()));
}

/// Ways of statements: 0 within 1 within 0, both within 2, 3 within bottom, top within 4.
#[test]
fn ways_of_statements() {
    let stated = Stated::new(5, &[[0, 1], [1, 0], [1, 2]]);
    let stated = stated.and(Node::Name(3), Node::Bottom).and(Node::Top, Node::Name(4));
    let worked = rows("22100 22100 00201 11020 00002");
    assert_eq!(stated.table(), worked);
    assert_eq!(classified(&stated.plain()).table, worked);
    let turned = stated.renamed(&[4, 3, 2, 1, 0]);
    assert_eq!(turned.table(), rows("20000 02011 10200 00122 00122"));
    let among = turned.among_others(4, 3, &mut Random::new(3));
    assert_eq!(classified(&among).table, turned.table());
    let contradictory = Stated::new(2, &[]).and(Node::Top, Node::Bottom);
    assert_eq!(contradictory.table(), rows("22 22"));
}

/// Interpretations of one or two elements: 1 and 2 lies within 3 in those of V, and 3 not within 1; what has some
/// bottom lies within bottom; what has some 1 does not lie within 1, for which two elements are needed.
#[test]
fn small_interpretations() {
    let [v, _, third, fourth, ..] = vocabularies().map(|vocabulary| records(&vocabulary));
    assert!(all_within(&v, &[[4, 3], [1, 1]]));
    assert!(!all_within(&v, &[[4, 3], [3, 1]]));
    assert!(all_within(&fourth, &[[2, 1]]));
    assert!(all_within(&third, &[[1, 2]]));
    assert!(!all_within(&third, &[[2, 1]]));
}

/// The cases made of the samples and the families get what they were made for, and bear it out.
#[test]
fn planned_cases() {
    let cases = Plan::made(1, |plan| {
        plan.samples();
        plan.by_elimination();
    });
    let tables = cases.iter().filter(|planned| matches!(planned.meant, Meant::Table(_)));
    assert_eq!((cases.len(), tables.count()), (623, 100));
    for planned in &cases {
        assert_eq!(fault(planned, &run(&planned.case)), None);
    }
}

/// Of the twelve names of each of these cases six are everything or nothing. With the last six so, the survivors stand
/// among 64 types in a row, with the first six at one place of each 64; every such row and every such place comes up.
#[test]
fn halves_decide() {
    let cases = Plan::made(1, Plan::halves);
    assert_eq!(cases.len(), 144);
    let (rows, places) = cases.split_at(72);
    let alone = |cases: &[Planned], by: fn(usize) -> usize| {
        let only = |planned: &Planned| {
            let outcome = run(&planned.case);
            assert_eq!(fault(planned, &outcome), None);
            let survivors = outcome.answer.unwrap().survivors;
            let all: BTreeSet<usize> = survivors.into_iter().map(by).collect();
            assert_eq!(all.len(), 1);
            all
        };
        cases.iter().flat_map(only).collect::<BTreeSet<usize>>()
    };
    assert_eq!(alone(rows, |t| t / 64), (0..64).collect());
    assert_eq!(alone(places, |t| t % 64), (0..64).collect());
}

/// A case whose answer, table or written bytes are not what they have to be is found out.
#[test]
fn faults_are_found() {
    let case = |statements: &[[u16; 2]], meant| Planned {
        case: Case {
            vocabulary: stated(3, statements),
            lent: [512, 144],
            seed: 0,
        },
        meant,
    };
    let any = || Meant::Line("counts ".to_string());
    let chain = case(&[[1, 2], [2, 3]], any());
    let found = |change: &dyn Fn(&mut Classified, &mut [Vec<u8>; 2])| {
        let mut outcome = run(&chain.case);
        let mut answer = outcome.answer.unwrap();
        change(&mut answer, &mut outcome.buffers);
        outcome.answer = Ok(answer);
        fault(&chain, &outcome)
    };
    let is = |text: &str| Some(text.to_string());
    assert_eq!(found(&|_, _| ()), None);
    let not_told = "the table is not that of the order it tells";
    assert_eq!(found(&|answer, _| answer.table = rows("211 021 002")), is(not_told));
    assert_eq!(found(&|answer, _| answer.table[143] = 2), is(not_told));
    let other = "the interpretation written has another order";
    assert_eq!(found(&|answer, _| answer.table = rows("210 020 002")), is(other));
    assert_eq!(found(&|_, buffers| buffers[0][0] = 0xFF), is(other));
    let largest = "the survivors are not the largest set";
    assert_eq!(found(&|answer, _| answer.survivors = vec![0]), is(largest));
    let meant = case(&[[1, 2]], Meant::Table(rows("200 020 002")));
    assert!(fault(&meant, &run(&meant.case)).is_some_and(|text| text.contains("another table")));
    let meant = case(&[[1, 2]], Meant::Line("refused".to_string()));
    assert!(fault(&meant, &run(&meant.case)).is_some_and(|text| text.contains("meant refused")));
}

/// Each wrong table and each wrong call does otherwise with some case of the samples, the shapes and the families.
#[test]
fn errors_are_told() {
    let cases = Plan::made(1, |plan| {
        plan.samples();
        plan.shapes();
        plan.by_elimination();
        plan.refusals(None);
    });
    let outcomes: Vec<_> = cases.iter().map(|planned| run(&planned.case)).collect();
    let pairs = || cases.iter().zip(&outcomes);
    let by_table: Vec<_> = pairs()
        .map(|(planned, outcome)| told_by_table(planned, outcome))
        .collect();
    let by_wide: Vec<_> = pairs()
        .map(|(planned, outcome)| told_by_wide(planned, outcome))
        .collect();
    let by_call: Vec<_> = pairs()
        .map(|(planned, outcome)| told_by_call(planned, outcome))
        .collect();
    for (i, (name, _)) in TABLES.iter().enumerate() {
        assert!(by_table.iter().any(|told| told[i]), "{name}");
    }
    for (i, (name, _)) in WIDE.iter().enumerate() {
        assert!(by_wide.iter().any(|told| told[i]), "{name}");
    }
    for (i, (name, _)) in CALLS.iter().enumerate() {
        assert!(by_call.iter().any(|told| told[i]), "{name}");
    }
}

/// The stored file, read and written again, is the same; as many lines are expected as it has cases.
#[test]
fn round_trip() {
    let file = stored("crates/classification_cases/stdin");
    let cases = decode(&file).unwrap();
    assert_eq!(encode(&cases).unwrap(), file);
    let expected = stored("crates/classification_cases/stdout");
    assert_eq!(expected.iter().filter(|byte| **byte == b'\n').count(), cases.len());
}

/// A case is read back as it was written, a file that ends inside one says in which, and a line is as README.md says.
#[test]
fn written_cases() {
    let case = |lent, seed| Case {
        vocabulary: vocabularies()[1].clone(),
        lent,
        seed,
    };
    let cases = [case([0, 0], 0), case([513, 258], 255), case([513, 145], 9)];
    let file = encode(&cases).unwrap();
    assert_eq!(file[..7], [56, 0, 0, 0, 0, 0, 0]);
    assert_eq!(file[63..70], [56, 0, 1, 2, 2, 1, 255]);
    assert_eq!(decode(&file).unwrap(), cases);
    assert_eq!(decode(&file[..70]).unwrap_err(), "the file ends inside case 1");
    assert_eq!(case([2, 4], 250).buffers(), [vec![250, 1], vec![5, 12, 19, 26]]);
    // Byte 0 of the survivors is 135, and byte 512 is 9. The table has 2, 0, 0, 0, 2, 0, 1, 1, 2; byte 144 is
    // 7 * 144 + 255 - 9, modulo 256, which is 230.
    let line = "counts 4 0 87 020000000200010102 144 69264 238 1353\n";
    assert_eq!(lines(&cases[2..]), line);
    assert_eq!(lines(&[case([2, 3], 3)]), "refused 12 0 13 16 265 772\n");
}
