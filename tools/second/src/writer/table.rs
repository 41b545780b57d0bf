//! How many cases of the writer there are of each sort, and how many tell each error.

use crate::table::Table;
use crate::vocabulary::told::{add_late, add_readers, with_the_right_count};
use crate::writer::call::{run, run_by, write, Outcome};
use crate::writer::checks::fault;
use crate::writer::editions::LATE;
use crate::writer::errors;
use crate::writer::file::{Call, Case};
use crate::writer::plan::Planned;
use crate::writer::rules::put;
use crate::writer::sorts::{Seen, Sort, SORTS};

/// Rows that refuse a call, each with how many cases have to meet it.
type Rows = &'static [(u8, usize)];

/// The calls: their names, the rows of the bytes in use that refuse them, or of room and roles where a vocabulary is
/// made, and those of room and of the new record.
const CALLS: [(&str, Sort, Rows, Rows); 3] = [
    ("made", Sort::Make, &[(27, 50), (2, 50)], &[]),
    (
        "term",
        Sort::Term,
        &[
            (1, 50),
            (2, 10),
            (3, 50),
            (4, 50),
            (5, 50),
            (6, 10),
            (7, 10),
            (8, 20),
            (28, 50),
        ],
        &[(27, 100), (3, 100), (4, 100), (5, 100), (6, 30), (7, 10)],
    ),
    (
        "statement",
        Sort::Statement,
        &[
            (1, 10),
            (2, 3),
            (3, 10),
            (4, 10),
            (5, 10),
            (6, 3),
            (7, 3),
            (8, 3),
            (28, 20),
        ],
        &[(27, 50), (5, 50)],
    ),
];
/// How many cases have to be accepted of each call, and of each kind of term.
const ACCEPTED: [usize; 2] = [100, 30];
/// How many cases have to tell each error.
const TELLING: usize = 5;

/// The table of cases of another seed.
pub fn seeded_table(cases: &[Planned]) -> Table {
    Table::seeded(cases, |planned| run(&planned.case), fault)
}

/// The table of the stored cases.
pub fn table(cases: &[Planned]) -> Table {
    let outcomes: Vec<Outcome> = cases.iter().map(|planned| run(&planned.case)).collect();
    let pairs = || cases.iter().zip(&outcomes);
    let seen: Vec<Seen> = pairs().map(|(planned, outcome)| Seen::of(planned, outcome)).collect();
    let mut table = Table::default();
    table.add("cases", cases.len(), 1);
    add_calls(&mut table, &seen);
    for (name, least, is_one) in SORTS {
        table.add(name, seen.iter().filter(|seen| is_one(seen)).count(), *least);
    }
    for (name, wrong) in errors::all() {
        let told = pairs().filter(|(planned, outcome)| run_by(*wrong, &planned.case) != **outcome);
        table.add(&format!("would change by: {name}"), told.count(), TELLING);
    }
    let buffers: Vec<(&Case, Vec<u8>)> = cases.iter().map(|p| (&p.case, p.case.buffer())).collect();
    add_readers(
        &mut table,
        buffers.iter().filter_map(|(case, buffer)| in_use(case, buffer)),
    );
    let counted = buffers
        .iter()
        .filter_map(|(case, buffer)| rightly_counted(case, buffer));
    add_late(&mut table, &LATE, counted);
    table.object(cases, &outcomes, fault);
    table
}

/// The bytes in use that an addition reads.
fn in_use<'a>(case: &Case, buffer: &'a [u8]) -> Option<&'a [u8]> {
    let used = usize::try_from(case.used).ok()?;
    let reads = !matches!(case.call, Call::Make { .. });
    buffer.get(..used).filter(|_| reads)
}

/// The refusal, 0 for none, that an addition which 28 refuses meets with the right k.
fn rightly_counted(case: &Case, buffer: &[u8]) -> Option<u8> {
    with_the_right_count(in_use(case, buffer)?, |counted| {
        let mut buffer = buffer.to_vec();
        put(&mut buffer, 0, &counted);
        write(&mut buffer, case.used, case.call)
    })
}

/// Adds how many cases there are of each call, by what they are answered.
fn add_calls(table: &mut Table, seen: &[Seen]) {
    let [of_each, of_kind] = ACCEPTED;
    for (name, sort, in_use, own) in CALLS {
        let count = |refusal: u8, accepted: bool| {
            let of_call = seen.iter().filter(|seen| seen.sort == sort);
            of_call
                .filter(|seen| seen.refusal == refusal && (sort == Sort::Make || seen.accepted == accepted))
                .count()
        };
        table.add(name, count(0, true), of_each);
        for (row, least) in in_use {
            table.add(&format!("{name}, refused {row}"), count(*row, false), *least);
        }
        for (row, least) in own {
            let which = if *row == 27 { "" } else { " at the new record" };
            table.add(&format!("{name}, refused {row}{which}"), count(*row, true), *least);
        }
    }
    for wanted in 1..=8 {
        let of_kind_wanted = |seen: &&Seen| {
            let is_wanted = matches!(seen.case.call, Call::Term { kind, .. } if kind == wanted);
            seen.refusal == 0 && is_wanted
        };
        let name = format!("term of kind {wanted}");
        table.add(&name, seen.iter().filter(of_kind_wanted).count(), of_kind);
    }
}
