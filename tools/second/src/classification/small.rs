//! The interpretations of one or two elements, all of them, evaluated by the section "Meaning": an account of what
//! holds in every finite interpretation that knows nothing of types.

use crate::comparison::chained;
use crate::vocabulary::records::{Record, A};

/// Vocabularies with more bits of choice do not have all interpretations tried.
const MOST_BITS: usize = 10;
/// The bits of choice of a name, one an element, and of a role, one a pair.
const BITS: [usize; 2] = [2, 4];

/// A set of elements of an interpretation, a bit for each.
type Members = usize;

/// An interpretation: how many elements it has, its choices, and who belongs to each record's term.
pub struct Small<'a> {
    /// How many elements there are.
    elements: usize,
    /// The bits of choice: the roles', then the names'.
    choices: usize,
    /// The roles that are spoken of.
    roles: &'a [u16],
    /// For each record who belongs.
    members: Vec<Members>,
}

/// The roles that restrictions speak of, each once.
fn roles(records: &[Record]) -> Vec<u16> {
    let restrictions = records.iter().filter(|record| matches!(record.kind, 7 | 8));
    let mut roles: Vec<u16> = restrictions.map(|record| record.fields[A]).collect();
    roles.sort_unstable();
    roles.dedup();
    roles
}

/// Whether one term lies within another in every interpretation of one or two elements that satisfies the statements,
/// for each of some pairs of terms; true where there are too many interpretations to try.
pub fn all_within(records: &[Record], pairs: &[[usize; 2]]) -> bool {
    let names = records.iter().filter(|record| record.is_name()).count();
    let (roles, statements) = (roles(records), chained(records));
    let bits = BITS[0] * names + BITS[1] * roles.len();
    let holds = |elements, choices| {
        let small = Small::of(records, &roles, elements, choices);
        !small.satisfies(&statements) || pairs.iter().all(|[a, b]| small.lies_within(*a, *b))
    };
    bits > MOST_BITS || (0..1 << bits).all(|choices| holds(1, choices) && holds(2, choices))
}

impl Small<'_> {
    /// The interpretation by its choices.
    fn of<'a>(records: &[Record], roles: &'a [u16], elements: usize, choices: usize) -> Small<'a> {
        let mut small = Small {
            elements,
            choices,
            roles,
            members: Vec::with_capacity(records.len()),
        };
        let mut next_name = BITS[1] * small.roles.len();
        for record in records {
            let everyone = (1 << elements) - 1;
            let own = match record.kind {
                3 => {
                    next_name += BITS[0];
                    choices >> (next_name - BITS[0]) & everyone
                }
                _ => (0..elements)
                    .filter(|d| small.belongs(record, *d))
                    .map(|d| 1 << d)
                    .sum(),
            };
            small.members.push(own);
        }
        small
    }

    /// Whether an element belongs to the term of a record that has its members.
    fn has(&self, term: usize, element: usize) -> bool {
        self.members
            .get(term)
            .is_some_and(|members| members >> element & 1 == 1)
    }

    /// Whether each element of one term belongs to another.
    fn lies_within(&self, a: usize, b: usize) -> bool {
        (0..self.elements).all(|d| !self.has(a, d) || self.has(b, d))
    }

    /// Whether an element belongs to the term of a record that is no name.
    fn belongs(&self, record: &Record, d: usize) -> bool {
        let [a, b] = record.operands();
        let role = self.roles.iter().position(|role| *role == record.fields[A]);
        let pair = |e: usize| self.choices >> (BITS[1] * role.unwrap_or(0) + 2 * d + e) & 1 == 1;
        let mut partners = (0..self.elements).filter(|e| pair(*e));
        match record.kind {
            1 => true,
            4 => !self.has(a, d),
            5 => self.has(a, d) && self.has(b, d),
            6 => self.has(a, d) || self.has(b, d),
            7 => partners.any(|e| self.has(b, e)),
            8 => partners.all(|e| self.has(b, e)),
            _ => false,
        }
    }

    /// Whether each of some statements is satisfied.
    fn satisfies(&self, statements: &[Record]) -> bool {
        let mut terms = statements.iter().map(Record::operands);
        terms.all(|[a, b]| self.lies_within(a, b))
    }
}
