//! How many cases of the script check there are of each sort, and how many tell each error.

use crate::script::call::{check_by, check_script};
use crate::script::checks::{fault, keeps_form};
use crate::script::editions::LATE;
use crate::script::errors;
use crate::script::merged::has_repeat;
use crate::script::plan::{script_of, Planned};
use crate::script::records::{at, chain, decode, COLUMN, EXTENSION, KIND, MOST_RECORDS, OWNER, POSITION, RECORD_BYTES};
use crate::script::sorts;
use crate::table::Table;
use crate::vocabulary::editions::is_second;
use crate::vocabulary::records::{at as vocabulary_record, records};
use crate::vocabulary::told::add_editions;
use crate::vocabulary::Refusal;
use std::collections::BTreeSet;

/// The refusals that cases have to meet, and how many cases have to.
const REFUSALS: [(std::ops::RangeInclusive<u8>, usize); 4] = [(1..=8, 3), (28..=28, 50), (10..=10, 30), (13..=25, 25)];
/// How many cases have to tell each error.
const TELLING: usize = 3;

/// How many literals the columns have: of kinds 1, 2, 4 to 9, and of the query.
const LITERALS: usize = 1 + 1 + 4 + 4 * 7 + 2 + 2;

/// An answer to a case.
type Answer = Result<usize, Refusal>;

/// A sort of accepted cases: its name, how many there have to be, and whether a case with so many
/// steps is one.
type Sort = (&'static str, usize, fn(&Planned, usize) -> bool);

/// The sorts of accepted cases.
const SORTS: [Sort; 6] = [
    ("accepted", 300, |_, _| true),
    ("accepted, 2 to 9 steps", 100, |_, n| (2..10).contains(&n)),
    ("accepted, 10 to 99 steps", 60, |_, n| (10..100).contains(&n)),
    ("accepted, 100 steps and more", 10, |_, n| n >= 100),
    ("accepted, all records used", 3, |planned, _| {
        planned.case.script.len() == MOST_RECORDS * RECORD_BYTES
    }),
    ("accepted, records off the chain", 100, |planned, n| {
        let records = decode(&planned.case.script);
        chain(&records).len() == n && n + 2 < records.len()
    }),
];

/// How many literals of columns the extensions of accepted scripts connect with, by kind of owner,
/// column and position.
fn connected(cases: &[Planned], answers: &[Answer]) -> usize {
    let mut met = BTreeSet::new();
    for (planned, _) in cases.iter().zip(answers).filter(|(_, a)| a.is_ok()) {
        let vocabulary = records(&planned.case.vocabulary);
        let script = decode(&planned.case.script);
        let steps = chain(&script).into_iter().map(|place| at(&script, place));
        for extension in steps.filter(|record| record[KIND] == EXTENSION) {
            let owner = vocabulary_record(&vocabulary, extension[OWNER].into());
            met.insert((owner.kind, extension[COLUMN], extension[POSITION]));
        }
    }
    met.len()
}

/// Adds the sorts of repeats, among the accepted cases and among those that are refused along the chain.
fn add_repeats(table: &mut Table, cases: &[Planned], answers: &[Answer]) {
    let formed = cases.iter().zip(answers).filter(|(_, a)| keeps_form(**a));
    let scripts = formed.filter(|(p, _)| has_repeat(&decode(&p.case.script)));
    let (accepted, refused): (Vec<_>, Vec<_>) = scripts.partition(|(_, a)| a.is_ok());
    table.add("accepted, a term under several records", accepted.len(), 60);
    table.add(
        "refused along the chain, a term under several records",
        refused.len(),
        300,
    );
    for (name, [least_accepted, least_refused], is_one) in sorts::SORTS {
        for (how, of, least) in [
            ("accepted", &accepted, least_accepted),
            ("refused along the chain", &refused, least_refused),
        ] {
            let with = of.iter().filter(|(p, _)| is_one(&script_of(&p.case)));
            table.add(&format!("{how}, {name}"), with.count(), least);
        }
    }
}

/// The answer to a case.
fn answer(planned: &Planned) -> Answer {
    check_script(&planned.case.vocabulary, &planned.case.script)
}

/// What is wrong with a case and its answer, or nothing.
fn wrong(planned: &Planned, answer: &Answer) -> Option<String> {
    fault(planned, *answer)
}

/// The table of cases of another seed.
pub fn seeded_table(cases: &[Planned]) -> Table {
    Table::seeded(cases, answer, wrong)
}

/// The table of the stored cases.
pub fn table(cases: &[Planned]) -> Table {
    let answers: Vec<Answer> = cases.iter().map(answer).collect();
    let mut table = Table::default();
    table.add("cases", cases.len(), 1);
    for (numbers, least) in REFUSALS {
        for number in numbers {
            let met = answers.iter().filter(|a| a.is_err_and(|r| r.number == number));
            table.add(&format!("refused {number}"), met.count(), least);
        }
    }
    let pairs = || cases.iter().zip(&answers);
    for (name, least, is_one) in SORTS {
        let with = pairs().filter(|(p, a)| a.is_ok_and(|steps| is_one(p, steps)));
        table.add(name, with.count(), least);
    }
    add_repeats(&mut table, cases, &answers);
    table.add(
        "different literals of columns connected",
        connected(cases, &answers),
        LITERALS,
    );
    for (name, wrong) in errors::all() {
        let told = pairs().filter(|(p, a)| check_by(*wrong, &p.case.vocabulary, &p.case.script) != **a);
        table.add(&format!("would change by: {name}"), told.count(), TELLING);
    }
    let second = || pairs().filter(|(p, _)| is_second(&p.case.vocabulary));
    table.add("edition 2, accepted", second().filter(|(_, a)| a.is_ok()).count(), 30);
    let refused = second().filter(|(_, a)| a.is_err() && keeps_form(**a));
    table.add("edition 2, refused along the chain", refused.count(), 40);
    add_editions(
        &mut table,
        &LATE,
        cases,
        |planned| &planned.case.vocabulary,
        |planned, vocabulary| check_script(&vocabulary, &planned.case.script),
    );
    table.object(cases, &answers, wrong);
    table
}
