//! The terms that a line asks about.

use super::kept::Known;
use super::line::{repeated, Claim, Field, Malformed, Row};
use crate::term::{self, Asked, Unasked};
use crate::text::words::{Wrong, FORMS};
use base::arguments::digits;

/// Why a line asks about no terms.
pub enum Unfit {
    /// What is refused, in words.
    Refused(String),
    /// A word names no term.
    Malformed(Malformed),
}

/// The terms of a line.
pub fn asked(known: &Known, row: &Row) -> Result<Asked, Unfit> {
    let words = row.pair.map(|field| field.text);
    if let [Some(a), Some(b)] = words.map(digits) {
        return Ok(Asked::numbers([a, b]));
    }
    let asked = term::ask(&known.input, words).map_err(|unasked| match unasked {
        Unasked::Refused(refused) => Unfit::Refused(refused.words(&known.input)),
        Unasked::Words(wrong) => Unfit::Malformed(first_wrong(row, wrong)),
    })?;
    if matches!(row.claim, Claim::Proved(_)) && !asked.added.is_empty() {
        let why = "no record of the vocabulary says a term of this line, so that no script is about it";
        return Err(Unfit::Refused(why.to_string()));
    }
    Ok(asked)
}

/// What is wrong with the first word that names no term.
fn first_wrong(row: &Row, [a, b]: [Option<Wrong>; 2]) -> Malformed {
    let [field_a, field_b] = row.pair;
    match (a, b) {
        (Some(wrong), _) => malformed(field_a, wrong),
        (None, Some(wrong)) => malformed(field_b, wrong),
        (None, None) => Malformed::in_field(field_a, 1, "no term is named"),
    }
}

fn malformed(field: Field, wrong: Wrong) -> Malformed {
    match wrong {
        Wrong::NoTerm(meant) => {
            let why = format!("'{}' is no term; A and B are each {FORMS}{meant}", repeated(field.text));
            Malformed::in_field(field, 1, why)
        }
        Wrong::Faults(faults) => {
            let fault = faults.into_iter().next();
            let (column, why) = fault.map_or((1, String::new()), |fault| (fault.column, fault.message));
            Malformed::in_field(field, column, why)
        }
    }
}
