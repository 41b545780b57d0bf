//! What the cases have to show before they are used: the lines for which they were made, the same
//! answer by the first records of their terms and in the other edition, and acceptance of nothing but
//! inclusions.

use crate::comparison::atoms;
use crate::script::call::check_script;
use crate::script::families::inclusions;
use crate::script::file::{line, Case};
use crate::script::merged::check_merged;
use crate::script::plan::Planned;
use crate::script::records::{at, decode, QUERY_A, QUERY_B};
use crate::vocabulary::editions::other;
use crate::vocabulary::records::records;
use crate::vocabulary::{check_vocabulary, Refusal};

/// Vocabularies with more atoms do not have their types tried, for their time.
const MOST_ATOMS: usize = 8;

/// Whether an answer is that to a script of good form: accepted, or refused along its chain.
pub fn keeps_form(answer: Result<usize, Refusal>) -> bool {
    answer.map_or_else(|refusal| (20..=25).contains(&refusal.number), |_| true)
}

/// Whether the query of a case holds; true where the types are too many to be tried.
fn may_hold(case: &Case) -> bool {
    let header = at(&decode(&case.script), 0);
    let query = [header[QUERY_A], header[QUERY_B]];
    let many = atoms(&records(&case.vocabulary)).len() > MOST_ATOMS;
    many || inclusions(&case.vocabulary).contains(&query)
}

/// What is wrong with a case and its answer, or nothing.
pub fn fault(planned: &Planned, answer: Result<usize, Refusal>) -> Option<String> {
    let Planned { case, meant } = planned;
    let told = line(answer);
    if !meant.is_empty() && told != *meant {
        return Some(format!("is {told}, meant {meant}"));
    }
    if answer.is_ok() && !may_hold(case) {
        return Some(format!("is {told}, but the query does not hold"));
    }
    let merged = keeps_form(answer).then(|| check_merged(case));
    let ways = [
        (merged, "by the first records of its terms"),
        (by_edition(case), "in the other edition"),
    ];
    let mut others = ways.into_iter().filter_map(|(other, way)| Some((other?, way)));
    let (other, way) = others.find(|(other, _)| *other != answer)?;
    Some(format!("is {told}, but {} {way}", line(other)))
}

/// The answer in the other edition, where the vocabulary is accepted.
fn by_edition(case: &Case) -> Option<Result<usize, Refusal>> {
    check_vocabulary(&case.vocabulary).ok()?;
    Some(check_script(&other(&case.vocabulary), &case.script))
}
