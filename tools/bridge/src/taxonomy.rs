//! The names of a vocabulary by their breadth: which are equal, and which are the nearest broader ones of each.

use std::fmt::{self, Display, Formatter};

use base::vocabulary::{Saying, Vocabulary};
use base::Failure;

use crate::hierarchy::Hierarchy;
use crate::meaning::elements;
use crate::question::compare;

#[cfg(test)]
mod tests;

/// A name, its equals and its nearest broader names, by their record numbers.
#[derive(Debug, PartialEq, Eq)]
struct Entry {
    name: u16,
    equal: Vec<u16>,
    broader: Vec<u16>,
}

/// The entries of all names, in record order.
#[derive(Debug, PartialEq, Eq)]
pub struct Taxonomy(Vec<Entry>);

/// The names of a vocabulary, in record order.
pub fn names(vocabulary: &Vocabulary) -> Vec<u16> {
    let is_name = |(_, saying): &(u16, Saying)| matches!(saying, Saying::Name(_));
    vocabulary.sayings().filter(is_name).map(|(number, _)| number).collect()
}

impl Taxonomy {
    /// The taxonomy of the names of which each lies within those that `is_within` says.
    fn new(names: &[u16], is_within: impl Fn(u16, u16) -> bool) -> Taxonomy {
        let is_strict = |a: u16, b: u16| is_within(a, b) && !is_within(b, a);
        let is_nearest =
            |a: u16, b: u16| is_strict(a, b) && !names.iter().any(|z| is_strict(a, *z) && is_strict(*z, b));
        let is_equal = |a: u16, b: u16| a != b && is_within(a, b) && is_within(b, a);
        let entry = |name: u16| Entry {
            name,
            equal: names.iter().copied().filter(|other| is_equal(name, *other)).collect(),
            broader: names.iter().copied().filter(|other| is_nearest(name, *other)).collect(),
        };
        Taxonomy(names.iter().map(|name| entry(*name)).collect())
    }

    /// By the survivors that a comparison writes, and not by the call that is raced: a name lies within another where
    /// every survivor in it is in the other.
    pub fn settled(vocabulary: &Vocabulary) -> Result<Taxonomy, Failure> {
        let (names, atoms) = (names(vocabulary), vocabulary.atoms());
        let Some(first) = names.first() else {
            return Ok(Taxonomy(Vec::new()));
        };
        let (_, survivors) = compare(&vocabulary.bytes(), (*first).into(), (*first).into())?;
        let elements = elements(&survivors);
        let has = |element: u16, name: u16| {
            let bit = atoms.iter().position(|atom| *atom == name);
            bit.is_some_and(|bit| element >> bit & 1 == 1)
        };
        let is_within = |a: u16, b: u16| elements.iter().all(|element| !has(*element, a) || has(*element, b));
        Ok(Taxonomy::new(&names, is_within))
    }

    /// By what a classification wrote; nothing where a name is missing there.
    pub fn classified(vocabulary: &Vocabulary, hierarchy: &Hierarchy) -> Option<Taxonomy> {
        let names = names(vocabulary);
        let all_there = names.iter().all(|name| hierarchy.has(*name));
        all_there.then(|| Taxonomy::new(&names, |a, b| hierarchy.is_within(a, b)))
    }
}

/// As bench/classify.c prints it.
impl Display for Taxonomy {
    fn fmt(&self, out: &mut Formatter<'_>) -> fmt::Result {
        let list = |numbers: &[u16]| numbers.iter().map(|number| format!(" {number}")).collect::<String>();
        for entry in &self.0 {
            let (equal, broader) = (list(&entry.equal), list(&entry.broader));
            writeln!(out, "{}: equal{equal}, broader{broader}", entry.name)?;
        }
        Ok(())
    }
}
