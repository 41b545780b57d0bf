//! What the cases have to show before they are used: the lines or tables for which they were made, tables that say a
//! whole order, interpretations that bear the order out, and the same in the other edition.

use crate::classification::call::Classified;
use crate::classification::editions::MOST_ATOMS;
use crate::classification::plan::{Meant, Planned};
use crate::classification::print::{line as line_of, run, Outcome};
use crate::classification::small::all_within;
use crate::classification::taxonomy::{names, Order, EQUAL, NEAREST};
use crate::comparison::meaning::{is_largest, read_back};
use crate::comparison::{Types, WRITTEN};
use crate::vocabulary::editions::differs_by_edition;
use crate::vocabulary::records::records;

/// Interpretations with more elements are not evaluated, for their time.
const MOST_ELEMENTS: usize = 64;
/// Vocabularies with more types do not have all sets of types tried.
const MOST_TYPES: usize = 8;

/// What is wrong with a case and its outcome, or nothing.
pub fn fault(planned: &Planned, outcome: &Outcome) -> Option<String> {
    let line = line_of(outcome);
    let by_edition = || {
        let case = &planned.case;
        differs_by_edition(&case.vocabulary, &line, MOST_ATOMS, |other| {
            line_of(&run(&case.over(other)))
        })
    };
    match &planned.meant {
        Meant::Line(meant) if !line.starts_with(meant) => Some(format!("is {}, meant {meant}", line.trim_end())),
        Meant::Table(meant) if outcome.answer.as_ref().map(|classified| classified.table) != Ok(*meant) => {
            Some(format!("is {}, meant with another table", line.trim_end()))
        }
        _ => unsupported(planned, outcome).or_else(by_edition),
    }
}

/// What the table itself, the written interpretation, those of one or two elements, or the search for a larger set have
/// against an answer.
fn unsupported(planned: &Planned, outcome: &Outcome) -> Option<String> {
    let classified = outcome.answer.as_ref().ok()?;
    let types = Types::of(records(&planned.case.vocabulary));
    let names = names(&types.records);
    let told = told(classified, names.len());
    if told.table() != classified.table {
        return Some("the table is not that of the order it tells".to_string());
    }
    if types.count() <= MOST_TYPES && !is_largest(&types, &classified.survivors) {
        return Some("the survivors are not the largest set".to_string());
    }
    let written = written(&types, &names, outcome);
    if written.is_some_and(|order| order.table() != classified.table) {
        return Some("the interpretation written has another order".to_string());
    }
    let holds = all_within(&types.records, &inclusions(&names, &told));
    (!holds).then(|| "an interpretation of one or two elements breaks the order".to_string())
}

/// The pairs of names of which the first lies within the second.
fn inclusions(names: &[usize], order: &Order) -> Vec<[usize; 2]> {
    let mut pairs = Vec::new();
    for (i, a) in names.iter().enumerate() {
        let above = names.iter().enumerate().filter(|(j, _)| order.within(i, *j));
        pairs.extend(above.map(|(_, b)| [*a, *b]));
    }
    pairs
}

/// The order that a table tells: what lies within what is reached by the names that it has as nearest or equal.
fn told(classified: &Classified, count: usize) -> Order {
    let entry = |i: usize, j: usize| classified.table.get(i * count + j).copied();
    let one_step = |i, j| matches!(entry(i, j), Some(EQUAL | NEAREST));
    let reached = |from: usize| {
        let mut reached = vec![from];
        let mut done = 0;
        while let Some(name) = reached.get(done).copied() {
            done += 1;
            let new = (0..count).filter(|j| one_step(name, *j) && !reached.contains(j));
            reached.extend(new.collect::<Vec<_>>());
        }
        reached
    };
    let all: Vec<Vec<usize>> = (0..count).map(reached).collect();
    Order::by(count, |i, j| all.get(i).is_some_and(|reached| reached.contains(&j)))
}

/// The order of names in the interpretation written, where it has few elements and satisfies the statements.
fn written(types: &Types, names: &[usize], outcome: &Outcome) -> Option<Order> {
    let [survivors, _] = &outcome.buffers;
    let bytes = survivors.get(..WRITTEN)?;
    if bytes.iter().map(|byte| byte.count_ones() as usize).sum::<usize>() > MOST_ELEMENTS {
        return None;
    }
    let read = read_back(types, bytes);
    let name = |i: usize| names.get(i).copied().unwrap_or(0);
    let places = || 0..read.elements.len();
    let within = |i, j| places().all(|place| !read.has(name(i), place) || read.has(name(j), place));
    let order = Order::by(names.len(), within);
    // An interpretation that breaks a statement bears nothing out: no name lies within any.
    Some(if read.satisfies(types) {
        order
    } else {
        Order::by(names.len(), |_, _| false)
    })
}
