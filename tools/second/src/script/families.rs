//! Vocabularies whose inclusions need the rules together: reductions, Skolem terms, both columns of
//! a query. The prover derives what holds in them.

use crate::comparison::{Terms, Types};
use crate::script::plan::{matrix, Plan};
use crate::vocabulary::records::{records, terms};

/// How many derivations are kept of one vocabulary.
const EACH: usize = 16;
/// The longest paths that are tried.
const LONGEST_PATH: usize = 9;
/// The bound from which a derivation may wander.
const WANDERING: usize = 7;
/// Derivations with more steps are not kept.
pub const MOST_STEPS: usize = 90;

/// Not, and, or over two names: double complement and De Morgan.
fn boolean() -> Terms {
    let mut terms = Terms::new(0);
    let [first, second] = terms.names();
    let [not_first, not_second] = [terms.not(first), terms.not(second)];
    let both = terms.and(first, second);
    let either = terms.or(first, second);
    terms.not(not_first);
    terms.not(both);
    terms.or(not_first, not_second);
    terms.not(either);
    terms.and(not_first, not_second);
    terms.or(first, not_first);
    terms.top();
    terms.and(second, not_second);
    terms.bottom();
    terms
}

/// And over or, and equal operands.
fn distributed() -> Terms {
    let mut terms = Terms::new(0);
    let [first, second, third] = terms.names();
    let either = terms.or(second, third);
    terms.and(first, either);
    let one = terms.and(first, second);
    let other = terms.and(first, third);
    terms.or(one, other);
    let twice = terms.and(first, first);
    terms.or(twice, twice);
    terms
}

/// Some and all of two roles, and their complements.
fn duals() -> Terms {
    let mut terms = Terms::new(2);
    let name = terms.name();
    let other = terms.not(name);
    for role in [0, 1] {
        terms.some(role, name);
        let all = terms.all(role, other);
        terms.not(all);
    }
    terms
}

/// Some over and, or, and all over and.
fn restrictions() -> Terms {
    let mut terms = Terms::new(1);
    let [first, second] = terms.names();
    let both = terms.and(first, second);
    let [some, all] = [terms.some(0, first), terms.all(0, second)];
    terms.and(some, all);
    terms.some(0, both);
    let one = terms.all(0, first);
    terms.and(one, all);
    terms.all(0, both);
    terms
}

/// A case split that statements make, which stand off the chain too, with one that does not hold.
fn split() -> Terms {
    let mut terms = Terms::new(0);
    let [first, second, third, fourth] = terms.names();
    let top = terms.top();
    let either = terms.or(first, second);
    for (a, b) in [(top, either), (first, third), (second, third)] {
        terms.within(a, b);
        terms.aside(a, b);
    }
    terms.aside(fourth, third);
    terms
}

/// Names of which each has the next as a witness.
fn ladder() -> Terms {
    let mut terms = Terms::new(1);
    let [first, second, third, fourth] = terms.names();
    let top = terms.top();
    for (name, next) in [(first, second), (second, third), (third, fourth)] {
        let some = terms.some(0, next);
        terms.within(name, some);
    }
    let mut nested = top;
    for _ in 0..3 {
        nested = terms.some(0, nested);
    }
    terms
}

/// A name that its witnesses hand on, and one that they may not have.
fn handed_on() -> Terms {
    let mut terms = Terms::new(2);
    let [first, second] = terms.names();
    let all = terms.all(1, first);
    let some = terms.some(1, second);
    let both = terms.and(first, second);
    let bottom = terms.bottom();
    terms.within(first, all);
    terms.within(both, bottom);
    terms.and(first, some);
    terms
}

/// A name that everything has and one that nothing has, each next to its complement: a literal is
/// closed when its complement becomes the goal.
fn complements() -> Terms {
    let mut terms = Terms::new(0);
    let (top, bottom) = (terms.top(), terms.bottom());
    let [first, second] = terms.names();
    terms.within(top, first);
    terms.within(second, bottom);
    for name in [first, second] {
        let not = terms.not(name);
        terms.and(name, not);
        terms.or(name, not);
    }
    terms
}

/// Names in a ring, each of which lies within the next.
fn ring() -> Terms {
    let mut terms = Terms::new(0);
    let [first, second, third] = terms.names();
    for (a, b) in [(first, second), (second, third), (third, first)] {
        terms.within(a, b);
        terms.aside(a, b);
    }
    terms
}

/// All of them.
pub const ALL: [fn() -> Terms; 9] = [
    boolean,
    distributed,
    duals,
    restrictions,
    split,
    ladder,
    handed_on,
    complements,
    ring,
];

impl Plan {
    /// Derivations over each of the vocabularies.
    pub fn families(&mut self) {
        for make in ALL {
            self.derivations(&make().bytes(), EACH);
        }
    }

    /// Up to `each` derivations of queries that hold, and the same by other paths.
    pub fn derivations(&mut self, vocabulary: &[u8], each: usize) {
        let mut queries = inclusions(vocabulary);
        self.random.shuffle(&mut queries);
        let mut kept = 0;
        for query in queries {
            let matrix = matrix(vocabulary, query);
            let wanders = self.random.chance(2);
            let first = if wanders { WANDERING } else { 0 };
            let found = self.derive(&matrix, first, LONGEST_PATH);
            let Some(steps) = found.filter(|steps| steps.len() <= MOST_STEPS) else {
                continue;
            };
            // Queries that two steps answer are many, and show little.
            if kept < each && (steps.len() > 4 || self.random.chance(20)) {
                let idle = self.random.pick(&[0, 0, 3, 3, 2]).unwrap_or(0);
                let base = self.write(vocabulary, &matrix, &steps, idle);
                self.add_base(base);
                kept += 1;
            }
        }
    }
}

/// The pairs of terms of which the first lies within the second, in each interpretation that
/// satisfies the statements.
pub fn inclusions(vocabulary: &[u8]) -> Vec<[u16; 2]> {
    let types = Types::of(records(vocabulary));
    let (survivors, _) = types.survivors();
    let terms = terms(&types.records);
    let holds = |a: usize, b: usize| {
        let mut all = survivors.iter();
        all.all(|t| !types.is_true(a, *t) || types.is_true(b, *t))
    };
    let pairs = terms.iter().flat_map(|a| terms.iter().map(|b| [*a, *b]));
    let held = pairs.filter(|[a, b]| holds(*a, *b));
    held.map(|pair| pair.map(|number| number as u16)).collect()
}
