//! Another way to tell equal terms: each is named by the first of its records, so that a function
//! and a record decide. An answer must not change by it.

use crate::script::call::check_by;
use crate::script::file::Case;
use crate::script::records::{decode, encode, set, Script, Term, Words, EXTENSION, FUNCTION, INNER, KIND, TERM, X, Y};
use crate::script::rules::Rules;
use crate::vocabulary::Refusal;
use std::collections::BTreeMap;

/// For each record of a script its number, or, where it repeats a term, that of the term's first record.
pub fn firsts(records: &[Words]) -> Vec<u16> {
    let mut known = BTreeMap::new();
    let mut firsts: Vec<u16> = Vec::new();
    for (number, record) in (0..).zip(records) {
        let inner = firsts.get(usize::from(record[INNER])).copied();
        let first = match record[KIND] {
            TERM => *known.entry((record[FUNCTION], inner)).or_insert(number),
            _ => number,
        };
        firsts.push(first);
    }
    firsts
}

/// Whether some term has several records.
pub fn has_repeat(records: &[Words]) -> bool {
    (0..).zip(firsts(records)).any(|(number, first)| number != first)
}

/// The records with each term named by the first of its records.
fn merged(records: &[Words]) -> Vec<Words> {
    let firsts = firsts(records);
    let mut merged = records.to_vec();
    for (place, record) in records.iter().enumerate() {
        let names: &[usize] = match record[KIND] {
            TERM => &[INNER],
            EXTENSION => &[X, Y],
            _ => &[],
        };
        for word in names {
            let named = record.get(*word).and_then(|n| firsts.get(usize::from(*n)));
            set(&mut merged, place, *word, named.copied().unwrap_or(0));
        }
    }
    merged
}

/// The check of scripts that name each term by one record.
struct Merged;

impl Rules for Merged {
    fn same_term(&self, script: &Script, s: Term, t: Term) -> bool {
        script.same_outer(s, t)
    }
}

/// The answer to a script of good form, by the first records of its terms.
pub fn check_merged(case: &Case) -> Result<usize, Refusal> {
    check_by(&Merged, &case.vocabulary, &encode(&merged(&decode(&case.script))))
}
