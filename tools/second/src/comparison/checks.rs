//! What the cases have to show before they are used: the answers for which they were made,
//! interpretations that bear the answers out, and the same in the other edition.

use crate::comparison::call::{Compared, WRITTEN};
use crate::comparison::editions::MOST_ATOMS;
use crate::comparison::meaning::{is_largest, objection};
use crate::comparison::plan::Planned;
use crate::comparison::print::{line as line_of, run, Outcome};
use crate::comparison::types::Types;
use crate::vocabulary::editions::differs_by_edition;
use crate::vocabulary::records::records;

/// Interpretations with more elements are not evaluated, for their time.
const MOST_ELEMENTS: usize = 256;
/// Vocabularies with more types do not have all sets of types tried.
const MOST_TYPES: usize = 8;

/// What is wrong with a case and its outcome, or nothing.
pub fn fault(planned: &Planned, outcome: &Outcome) -> Option<String> {
    let line = line_of(outcome);
    if !line.starts_with(&planned.meant) {
        return Some(format!("is {}, meant {}", line.trim_end(), planned.meant));
    }
    let by_edition = || {
        let case = &planned.case;
        differs_by_edition(&case.vocabulary, &line, MOST_ATOMS, |other| {
            line_of(&run(&case.over(other)))
        })
    };
    let Ok(compared) = &outcome.answer else {
        return by_edition();
    };
    let Some(written) = outcome.buffer.first_chunk::<WRITTEN>() else {
        return Some("is an answer with too few bytes lent".to_string());
    };
    unsupported(planned, compared, written).or_else(by_edition)
}

/// What the written interpretation, or the search for a larger set, has against an answer.
fn unsupported(planned: &Planned, compared: &Compared, bytes: &[u8]) -> Option<String> {
    if compared.survivors.len() > MOST_ELEMENTS {
        return None;
    }
    let types = Types::of(records(&planned.case.vocabulary));
    if types.count() <= MOST_TYPES && !is_largest(&types, &compared.survivors) {
        return Some("the survivors are not the largest set".to_string());
    }
    objection(&types, compared, [planned.case.a, planned.case.b], bytes)
}
