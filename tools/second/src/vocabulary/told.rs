//! How many cases tell wrong readers, and calls that ask row 28 after rows of their own.

use crate::table::Table;
use crate::vocabulary::call::check_vocabulary;
use crate::vocabulary::editions::second;
use crate::vocabulary::errors::{calls, ERRORS};
use crate::vocabulary::file::Case;
use crate::vocabulary::rules::{Paper, Rules};
use crate::vocabulary::Refusal;

/// How many cases have to tell each error.
const TELLING: usize = 5;

/// A call that asks row 28 too late: its name, and the rows that it asks before.
pub type Late = (&'static str, &'static [u8]);

/// Adds how many of the vocabularies that are read tell each wrong reader. Where its answer is another, so is that of
/// the call that reads: what a call refuses itself has another number, or a new record as its place.
pub fn add_readers<'a>(table: &mut Table, read: impl Iterator<Item = &'a [u8]>) {
    let answers: Vec<_> = read.map(|bytes| (bytes, check_vocabulary(bytes))).collect();
    for (name, wrong) in ERRORS {
        let told = answers.iter().filter(|(bytes, right)| wrong.check(bytes) != *right);
        table.add(&format!("would change by: {name}"), told.count(), TELLING);
    }
}

/// How many vocabularies tell each wrong reader and each wrong record call.
pub fn table(cases: &[Case]) -> Table {
    let mut table = Table::default();
    add_readers(&mut table, cases.iter().map(|case| case.vocabulary.as_slice()));
    add_record_calls(&mut table, cases);
    table
}

/// Adds how many vocabularies tell each wrong record call.
fn add_record_calls(table: &mut Table, cases: &[Case]) {
    for (name, wrong) in calls::ERRORS {
        let differs = |case: &&Case| {
            let find = |rules: &dyn Rules| rules.find(&case.vocabulary, case.number);
            find(*wrong) != find(&Paper)
        };
        table.add(
            &format!("would change by: {name}"),
            cases.iter().filter(differs).count(),
            TELLING,
        );
    }
}

/// The refusal, 0 for none, that a case which 28 refuses meets with the right k. `ask` answers the case with another
/// vocabulary.
pub fn with_the_right_count<A>(vocabulary: &[u8], ask: impl FnOnce(Vec<u8>) -> Result<A, Refusal>) -> Option<u8> {
    let refused = check_vocabulary(vocabulary).is_err_and(|refusal| refusal.number == 28);
    let answer = refused.then(|| ask(second(vocabulary)))?;
    Some(answer.map_or_else(|refusal| refusal.number, |_| 0))
}

/// Adds how many cases tell calls that ask row 28 too late, by the refusals that those cases which 28 refuses meet with
/// the right k (0 for none).
pub fn add_late(table: &mut Table, late: &[Late], refusals: impl Iterator<Item = u8>) {
    let refusals: Vec<_> = refusals.collect();
    for (name, rows) in late {
        let told = refusals.iter().filter(|number| rows.contains(number));
        table.add(&format!("would change by: {name}"), told.count(), TELLING);
    }
}

/// Adds how many cases tell wrong readers, and calls that ask row 28 too late. `ask` answers a case with another
/// vocabulary.
pub fn add_editions<C, A>(
    table: &mut Table,
    late: &[Late],
    cases: &[C],
    vocabulary: impl Fn(&C) -> &[u8],
    ask: impl Fn(&C, Vec<u8>) -> Result<A, Refusal>,
) {
    add_readers(table, cases.iter().map(&vocabulary));
    let counted = |case: &C| with_the_right_count(vocabulary(case), |other| ask(case, other));
    add_late(table, late, cases.iter().filter_map(counted));
}
