//! How many cases of the classification there are of each sort, and how many tell each error.

use crate::classification::checks::fault;
use crate::classification::editions::LATE;
use crate::classification::errors::{WrongTable, CALLS, TABLES, WIDE};
use crate::classification::plan::Planned;
use crate::classification::print::{run, Outcome};
use crate::classification::taxonomy::{names, EQUAL, NEAREST};
use crate::comparison::Types;
use crate::table::Table;
use crate::vocabulary::editions::is_second;
use crate::vocabulary::records::records;
use crate::vocabulary::told::add_editions;

/// Tables that are wrong only where there are more than six atoms are tried where there are more types than these, so
/// that no error from the ninth atom on is told by smaller vocabularies alone.
const FEW_TYPES: usize = 256;

/// The refusals that cases have to meet, and how many cases have to.
const REFUSALS: [(u8, usize); 12] = [
    (1, 20),
    (2, 20),
    (3, 20),
    (4, 20),
    (5, 20),
    (6, 20),
    (7, 20),
    (8, 20),
    (28, 50),
    (11, 50),
    (12, 100),
    (26, 50),
];

/// How many cases have to tell each error.
const TELLING: usize = 5;

/// A case that is not refused: its rows, how many survivors and rounds there are.
struct Seen {
    /// The rows of the table.
    rows: Vec<Vec<u8>>,
    /// How many survivors there are.
    survivors: usize,
    /// How many rounds removed something.
    rounds: usize,
}

/// A sort of cases that are not refused: its name, how many there have to be, and whether a case is one.
type Sort = (&'static str, usize, fn(&Seen) -> bool);

/// The sorts of cases that are not refused.
const SORTS: [Sort; 14] = [
    ("classified", 1000, |_| true),
    ("no name", 20, |seen| seen.rows.is_empty()),
    ("one name", 20, |seen| seen.rows.len() == 1),
    ("two to six names", 500, |seen| (2..7).contains(&seen.rows.len())),
    ("seven to eleven names", 100, |seen| (7..12).contains(&seen.rows.len())),
    ("twelve names", 50, |seen| seen.rows.len() == 12),
    ("no survivor, names", 20, |seen| {
        seen.survivors == 0 && !seen.rows.is_empty()
    }),
    ("all names equal, survivors", 20, |seen| {
        seen.survivors > 0 && seen.rows.len() > 1 && seen.rows.iter().flatten().all(|byte| *byte == EQUAL)
    }),
    ("other names equal", 100, |seen| {
        seen.rows.iter().any(|row| has(row, EQUAL, 2))
    }),
    ("a nearest name", 500, |seen| {
        seen.rows.iter().any(|row| has(row, NEAREST, 1))
    }),
    ("two nearest names", 100, |seen| {
        seen.rows.iter().any(|row| has(row, NEAREST, 2))
    }),
    ("a nearest name, and rounds", 200, |seen| {
        seen.rounds > 0 && seen.rows.iter().any(|row| has(row, NEAREST, 1))
    }),
    ("rounds 2 and more", 200, |seen| seen.rounds >= 2),
    ("rounds 10 and more", 3, |seen| seen.rounds >= 10),
];

/// Whether a row has a byte so often.
fn has(row: &[u8], byte: u8, times: usize) -> bool {
    row.iter().filter(|entry| **entry == byte).count() >= times
}

/// What is seen of a case that is not refused.
fn seen(planned: &Planned, outcome: &Outcome) -> Option<Seen> {
    let classified = outcome.answer.as_ref().ok()?;
    let count = names(&records(&planned.case.vocabulary)).len();
    let rows = classified.table.chunks(count.max(1)).take(count);
    Some(Seen {
        rows: rows.map(<[u8]>::to_vec).collect(),
        survivors: classified.survivors.len(),
        rounds: classified.rounds,
    })
}

/// For each of some wrong tables whether it is another than the right one of a case; false where there are only few
/// types.
fn told<const N: usize>(planned: &Planned, outcome: &Outcome, wrong: [WrongTable; N], few: usize) -> [bool; N] {
    let Ok(right) = &outcome.answer else {
        return [false; N];
    };
    let types = Types::of(records(&planned.case.vocabulary));
    wrong.map(|(_, wrong)| types.count() > few && wrong(&types, &right.survivors) != right.table)
}

/// For each wrong table whether a case tells it.
pub fn told_by_table(planned: &Planned, outcome: &Outcome) -> [bool; TABLES.len()] {
    told(planned, outcome, TABLES, 0)
}

/// For each table that is wrong only where there are more than six atoms, whether a case of more than eight tells it.
pub fn told_by_wide(planned: &Planned, outcome: &Outcome) -> [bool; WIDE.len()] {
    told(planned, outcome, WIDE, FEW_TYPES)
}

/// For each wrong call whether it does something else than the right one with a case.
pub fn told_by_call(planned: &Planned, outcome: &Outcome) -> [bool; CALLS.len()] {
    CALLS.map(|(_, wrong)| wrong(&planned.case, outcome) != *outcome)
}

/// The table of cases of another seed.
pub fn seeded_table(cases: &[Planned]) -> Table {
    Table::seeded(cases, |planned| run(&planned.case), fault)
}

/// The table of the stored cases.
pub fn table(cases: &[Planned]) -> Table {
    let outcomes: Vec<Outcome> = cases.iter().map(|planned| run(&planned.case)).collect();
    let pairs = || cases.iter().zip(&outcomes);
    let mut table = Table::default();
    table.add("cases", cases.len(), 1);
    for (number, least) in REFUSALS {
        let met = outcomes
            .iter()
            .filter(|o| o.answer.as_ref().is_err_and(|r| r.number == number));
        table.add(&format!("refused {number}"), met.count(), least);
    }
    let seen: Vec<Seen> = pairs()
        .filter_map(|(planned, outcome)| seen(planned, outcome))
        .collect();
    for (name, least, is_one) in SORTS {
        table.add(name, seen.iter().filter(|seen| is_one(seen)).count(), least);
    }
    count_told(
        &mut table,
        TABLES.map(|(name, _)| name),
        pairs().map(|(p, o)| told_by_table(p, o)),
    );
    count_told(
        &mut table,
        WIDE.map(|(name, _)| name),
        pairs().map(|(p, o)| told_by_wide(p, o)),
    );
    count_told(
        &mut table,
        CALLS.map(|(name, _)| name),
        pairs().map(|(p, o)| told_by_call(p, o)),
    );
    let second = pairs().filter(|(p, o)| o.answer.is_ok() && is_second(&p.case.vocabulary));
    table.add("edition 2, classified", second.count(), 100);
    add_editions(
        &mut table,
        &LATE,
        cases,
        |planned| &planned.case.vocabulary,
        |planned, vocabulary| run(&planned.case.over(vocabulary)).answer,
    );
    table.object(cases, &outcomes, fault);
    table
}

/// Adds how many cases tell each error.
fn count_told<const N: usize>(table: &mut Table, names: [&str; N], told: impl Iterator<Item = [bool; N]>) {
    let mut counts = [0; N];
    for case in told {
        for (count, told) in counts.iter_mut().zip(case) {
            *count += usize::from(told);
        }
    }
    for (name, count) in names.iter().zip(counts) {
        table.add(&format!("would change by: {name}"), count, TELLING);
    }
}
