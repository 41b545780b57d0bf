//! The script check on the paper's samples, the cases made of them, and the file of cases.

#![allow(clippy::unwrap_used, clippy::indexing_slicing)]

use crate::random::Random;
use crate::script::call::{check_by, check_script};
use crate::script::checks::fault;
use crate::script::errors;
use crate::script::plan::{script_of, Plan, Planned};
use crate::script::rules::{Paper, Rules};
use crate::script::sorts::SORTS;
use crate::script::{decode, encode, lines, Case};
use crate::tests::paper::{complements, header, levels, nested, refusal, script, scripts};
use crate::tests::stored;
use crate::vocabulary::editions::{holding, second};

/// The cases of some groups.
fn planned(groups: impl Fn(&mut Plan)) -> Vec<Planned> {
    let mut plan = Plan {
        cases: Vec::new(),
        bases: Vec::new(),
        random: Random::new(1),
    };
    groups(&mut plan);
    plan.cases
}

/// The answer to a case.
fn answer(case: &Case) -> Result<usize, crate::vocabulary::Refusal> {
    check_script(&case.vocabulary, &case.script)
}

/// Samples 7 to 9.
#[test]
fn samples_7_to_9() {
    for (vocabulary, script, answer) in scripts() {
        assert_eq!(check_script(&vocabulary, &script), answer);
    }
}

/// Samples 7 to 9 in edition 2 have the same answers; a wrong k is 28, before 13 and all that follows.
#[test]
fn editions() {
    for (vocabulary, script, answer) in scripts() {
        let counted = second(&vocabulary);
        assert_eq!(check_script(&counted, &script), answer);
        assert_eq!(check_script(&counted, &script[1..]), Err(refusal(13, 0)));
        let k = usize::from(counted[6]);
        for script in [&script[..], &script[1..], &script[..16], &[0; 32], &[]] {
            assert_eq!(check_script(&holding(&vocabulary, 9), script), Err(refusal(28, k)));
        }
    }
}

/// Sample 10: each query of a header alone gives 10.
#[test]
fn sample_10() {
    for query in [0, 1, 2, 511, 65535] {
        let asked = script(&[[32, query, 1, 0, 0, 0, 0, 0], [1, 0, 0, 0, 0, 0, 0, 0]]);
        assert_eq!(check_script(&header(0), &asked), Err(refusal(10, query.into())));
    }
}

/// Sample 10: a 64th frame passes, a 65th gives 23. The start opens the first, each complement another, and the last
/// extension none; records 0 to 2 are the header, the constant and the start.
#[test]
fn frames() {
    for count in [1, 2, 62, 63] {
        let (vocabulary, script) = complements(count);
        assert_eq!(check_script(&vocabulary, &script), Ok(usize::from(count) + 2));
    }
    for count in [64, 65] {
        let (vocabulary, script) = complements(count);
        assert_eq!(check_script(&vocabulary, &script), Err(refusal(23, 2 + 64)));
    }
}

/// A term may have several records, equal ones and others of its inner term, and is the same by each of them; the
/// constant has one. 3 is some of 2, which is some of bottom: records 2 and 3 are f3(a), 4 and 5 are f2(f3(a)).
#[test]
fn repeated_terms() {
    let vocabulary = levels();
    for (x, last) in [(2, 4), (2, 5), (3, 4), (3, 5)] {
        assert_eq!(check_script(&vocabulary, &nested([2, 3], [x, last])), Ok(4));
    }
    for last in [1, 2, 3] {
        assert_eq!(
            check_script(&vocabulary, &nested([2, 3], [3, last])),
            Err(refusal(21, 9))
        );
    }
    assert_eq!(check_script(&vocabulary, &nested([2, 1], [3, 5])), Err(refusal(21, 9)));
    let mut again = nested([2, 3], [2, 5]);
    again.extend(script(&[[2, 2, 2, 0, 0, 0, 0, 0]]));
    assert_eq!(check_script(&vocabulary, &again), Ok(4));
    again.extend(script(&[[1, 0, 0, 0, 0, 0, 0, 0]]));
    assert_eq!(check_script(&vocabulary, &again), Err(refusal(17, 11)));
}

/// Reductions by other records of their terms are among the accepted scripts, those that are made record by record and
/// those that are rewritten, whatever the seed; each has its answer.
#[test]
fn reductions_by_other_records() {
    let (.., [least, _], is_one) = SORTS.into_iter().next_back().unwrap();
    let made = planned(Plan::reduced_repeats);
    let rewritten = planned(Plan::rewritten_reductions);
    assert!(made
        .iter()
        .chain(&rewritten)
        .all(|p| fault(p, answer(&p.case)).is_none()));
    let [made, rewritten] = [made, rewritten].map(|cases| {
        let accepted = cases.iter().filter(|p| answer(&p.case).is_ok());
        accepted.filter(|p| is_one(&script_of(&p.case))).count()
    });
    assert!(made >= least);
    assert!(rewritten >= 5);
}

/// The cases made of the samples are each made for an answer, and get it. Samples 7 to 9 are among them.
#[test]
fn planned_samples() {
    let cases = planned(Plan::samples);
    assert_eq!(cases.len(), 33);
    for planned in &cases {
        assert!(!planned.meant.is_empty());
        assert_eq!(fault(planned, answer(&planned.case)), None);
    }
    for (vocabulary, script, _) in scripts() {
        assert!(cases.iter().any(|p| p.case
            == Case {
                vocabulary: vocabulary.clone(),
                script: script.clone()
            }));
    }
}

/// A case whose answer is not the one it was made for is found out, and so is acceptance where the query does not hold.
#[test]
fn faults_are_found() {
    let mut cases = planned(Plan::samples);
    let mut first = cases.swap_remove(0);
    assert_eq!(first.meant, "accepted 3");
    let wrong = fault(&first, Err(refusal(24, 3)));
    assert_eq!(wrong, Some("is refused 24 3, meant accepted 3".to_string()));
    // The query turned round: 3 does not lie within 4.
    first.case.script.swap(2, 4);
    let unfounded = fault(&first, Ok(3));
    assert_eq!(
        unfounded,
        Some("is accepted 3, but the query does not hold".to_string())
    );
}

/// An answer that another way to tell equal terms, or the other edition, does not bear out is found out.
#[test]
fn other_terms_are_found() {
    let planned = Planned {
        case: Case {
            vocabulary: levels(),
            script: nested([2, 3], [3, 4]),
        },
        meant: String::new(),
    };
    assert_eq!(fault(&planned, Ok(4)), None);
    assert_eq!(
        fault(&planned, Err(refusal(21, 9))),
        Some("is refused 21 9, but accepted 4 by the first records of its terms".to_string())
    );
    assert_eq!(
        fault(&planned, Err(refusal(13, 0))),
        Some("is refused 13 0, but accepted 4 in the other edition".to_string())
    );
}

/// Each wrong script check answers otherwise in some case; the paper's, by the same path, in none.
#[test]
fn errors_are_told() {
    let cases = planned(|plan| {
        plan.samples();
        plan.families();
        plan.low_towers();
        plan.damaged(None);
        plan.walks();
        plan.high_towers();
        plan.unrecorded();
        plan.deep_repeats();
        plan.rewritten(None);
        plan.reduced_repeats();
    });
    let answered: Vec<_> = cases
        .iter()
        .map(|planned| (&planned.case, answer(&planned.case)))
        .collect();
    let told = |rules: &dyn Rules| {
        let mut all = answered.iter();
        all.any(|(case, right)| check_by(rules, &case.vocabulary, &case.script) != *right)
    };
    let untold = errors::all().filter(|(_, wrong)| !told(*wrong));
    assert_eq!(untold.map(|(name, _)| *name).collect::<Vec<_>>(), Vec::<&str>::new());
    assert!(!told(&Paper));
}

/// The stored file, read and written again, is the same; as many lines are expected as it has cases.
#[test]
fn round_trip() {
    let file = stored("crates/script_cases/stdin");
    let cases = decode(&file).unwrap();
    assert_eq!(encode(&cases).unwrap(), file);
    let expected = stored("crates/script_cases/stdout");
    assert_eq!(expected.iter().filter(|byte| **byte == b'\n').count(), cases.len());
}

/// Cases are read back as they were written, a file that ends inside one says in which, and lines are as README.md says.
#[test]
fn written_cases() {
    let cases = scripts().map(|(vocabulary, script, _)| Case { vocabulary, script });
    let file = encode(&cases).unwrap();
    assert_eq!(file[..4], [48, 0, 80, 0]);
    assert_eq!(decode(&file).unwrap(), cases);
    assert_eq!(decode(&file[..140]).unwrap_err(), "the file ends inside case 1");
    assert_eq!(lines(&cases), "accepted 3\nrefused 24 3\naccepted 3\nrefused 21 5\n");
}
