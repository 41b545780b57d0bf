//! How many cases of the comparison there are of each sort, and how many tell each error.

use crate::comparison::call::Compared;
use crate::comparison::checks::fault;
use crate::comparison::counts::COUNTS;
use crate::comparison::editions::LATE;
use crate::comparison::errors::ERRORS;
use crate::comparison::plan::Planned;
use crate::comparison::print::{run, Outcome};
use crate::comparison::types::Types;
use crate::table::Table;
use crate::vocabulary::editions::is_second;
use crate::vocabulary::records::records;
use crate::vocabulary::told::add_editions;

/// Vocabularies with more types do not have the errors tried on them, for their time.
const MOST_TYPES: usize = 256;

/// The refusals that cases have to meet.
const REFUSALS: [u8; 12] = [1, 2, 3, 4, 5, 6, 7, 8, 28, 10, 11, 12];

/// A sort of answer: its name, and whether an answer is one.
type Sort = (&'static str, fn(&Compared) -> bool);

/// The sorts of answers that cases have to get.
const SORTS: [Sort; 10] = [
    ("equal", |c| c.element.is_none()),
    ("different", |c| c.element.is_some()),
    ("different, element not 0", |c| c.element.is_some_and(|t| t > 0)),
    ("rounds 0", |c| c.rounds == 0),
    ("rounds 1", |c| c.rounds == 1),
    ("rounds 2", |c| c.rounds == 2),
    ("rounds 3 to 9", |c| (3..10).contains(&c.rounds)),
    ("rounds 10 and more", |c| c.rounds >= 10),
    ("no survivor, no round", |c| c.survivors.is_empty() && c.rounds == 0),
    ("no survivor, rounds", |c| c.survivors.is_empty() && c.rounds > 0),
];

/// The errors that change the answer to a case: wrong comparisons, and wrong counts.
fn told(planned: &Planned, outcome: &Outcome) -> Vec<&'static str> {
    let Ok(right) = &outcome.answer else {
        return Vec::new();
    };
    let (a, b) = (planned.case.a, planned.case.b);
    let types = Types::of(records(&planned.case.vocabulary));
    if types.count() > MOST_TYPES {
        return Vec::new();
    }
    let compared = ERRORS.iter().filter(|(_, wrong)| wrong(&types, a, b) != *right);
    let counted = COUNTS
        .iter()
        .filter(|(_, wrong)| wrong(&types) != right.survivors.len());
    compared
        .map(|(name, _)| *name)
        .chain(counted.map(|(name, _)| *name))
        .collect()
}

/// The table of cases of another seed.
pub fn seeded_table(cases: &[Planned]) -> Table {
    Table::seeded(cases, |planned| run(&planned.case), fault)
}

/// The table of the stored cases.
pub fn table(cases: &[Planned]) -> Table {
    let outcomes: Vec<Outcome> = cases.iter().map(|planned| run(&planned.case)).collect();
    let with = |test: &dyn Fn(&Outcome) -> bool| outcomes.iter().filter(|o| test(o)).count();
    let mut table = Table::default();
    table.add("cases", cases.len(), 1);
    for number in REFUSALS {
        let refused = |o: &Outcome| o.answer.as_ref().is_err_and(|r| r.number == number);
        table.add(&format!("refused {number}"), with(&refused), 1);
    }
    for (name, is_one) in SORTS {
        table.add(name, with(&|o| o.answer.as_ref().is_ok_and(is_one)), 1);
    }
    let pairs = || cases.iter().zip(&outcomes);
    let told: Vec<_> = pairs().flat_map(|(planned, outcome)| told(planned, outcome)).collect();
    let names = ERRORS
        .iter()
        .map(|(name, _)| *name)
        .chain(COUNTS.iter().map(|(name, _)| *name));
    for name in names {
        let count = told.iter().filter(|error| **error == name).count();
        table.add(&format!("would change by: {name}"), count, 1);
    }
    let second = pairs().filter(|(p, o)| o.answer.is_ok() && is_second(&p.case.vocabulary));
    table.add("edition 2, compared", second.count(), 100);
    add_editions(
        &mut table,
        &LATE,
        cases,
        |planned| &planned.case.vocabulary,
        |planned, vocabulary| run(&planned.case.over(vocabulary)).answer,
    );
    table.object(cases, &outcomes, fault);
    table
}
