//! The way from an element, by roles, to what makes it belong to one term and not to another.

use crate::model::{Meaning, Model};
use base::vocabulary::{Saying, Vocabulary};
use std::collections::{BTreeMap, BTreeSet};

/// An element on the way, with what is decisive at it.
#[derive(Debug, PartialEq, Eq)]
pub struct Place {
    /// The element.
    pub element: u16,
    /// The names and restrictions that are decisive, each with whether it holds.
    pub facts: Vec<(u16, bool)>,
    /// Where its roles lead.
    pub ways: Vec<Way>,
    /// Whether a restriction is decisive whose ways are told before.
    pub above: bool,
}

/// Where a role leads from an element.
#[derive(Debug, PartialEq, Eq)]
pub struct Way {
    /// The role.
    pub role: u16,
    /// The elements.
    pub to: Vec<Place>,
    /// Whether it is decisive that it leads to no others.
    pub is_all: bool,
}

/// The way by which the first element of a model belongs to the terms to which it belongs, and not to the others.
pub fn find(vocabulary: &Vocabulary, model: &Model, terms: [u16; 2]) -> Place {
    let meaning = Meaning::of(vocabulary, model);
    let mut finder = Finder {
        costs: costs(vocabulary, model, &meaning),
        vocabulary,
        model,
        meaning,
        told: BTreeSet::new(),
    };
    let element = model.elements.first().copied().unwrap_or(0);
    finder.place(element, &terms)
}

/// How many edges it takes to tell whether each element belongs to each term.
type Costs = BTreeMap<(u16, u16), u32>;

/// The edges by which a restriction holds or does not: one of them will do, or all are needed.
enum Edges {
    One(Vec<u16>),
    All(Vec<u16>),
}

/// The edges that decide a restriction at an element.
fn edges(
    model: &Model,
    meaning: &Meaning,
    element: u16,
    [restriction, role, filler]: [u16; 3],
    is_some: bool,
) -> Edges {
    let targets = model.edges_from(element, role);
    if meaning.is_in(element, restriction) == is_some {
        Edges::One(targets.filter(|to| meaning.is_in(*to, filler) == is_some).collect())
    } else {
        Edges::All(targets.collect())
    }
}

/// The operands that decide an intersection or a union at an element: both, or one that will do.
fn operands(meaning: &Meaning, element: u16, number: u16, [a, b]: [u16; 2], is_and: bool) -> (Vec<u16>, bool) {
    let truth = meaning.is_in(element, number);
    let decides = |term: &u16| meaning.is_in(element, *term) == truth;
    let deciding = [a, b].into_iter().filter(decides).collect();
    (deciding, truth == is_and)
}

/// The costs, each out of those of earlier records.
fn costs(vocabulary: &Vocabulary, model: &Model, meaning: &Meaning) -> Costs {
    let mut costs = Costs::new();
    for (number, saying) in vocabulary.sayings() {
        for element in &model.elements {
            let cost = cost(&costs, model, meaning, (*element, number), saying);
            costs.insert((*element, number), cost);
        }
    }
    costs
}

fn cost(costs: &Costs, model: &Model, meaning: &Meaning, (element, number): (u16, u16), saying: Saying) -> u32 {
    let known = |element: u16, term: u16| costs.get(&(element, term)).copied().unwrap_or(0);
    let sum = |costs: &mut dyn Iterator<Item = u32>| costs.fold(0, u32::saturating_add);
    let (deciding, is_both) = match saying {
        Saying::Top | Saying::Bottom | Saying::Name(_) | Saying::Within(..) => return 0,
        Saying::Not(a) => return known(element, a),
        Saying::And(a, b) => operands(meaning, element, number, [a, b], true),
        Saying::Or(a, b) => operands(meaning, element, number, [a, b], false),
        Saying::Some(role, filler) | Saying::All(role, filler) => {
            let is_some = matches!(saying, Saying::Some(..));
            let by_edge = |to: &u16| known(*to, filler).saturating_add(1);
            return match edges(model, meaning, element, [number, role, filler], is_some) {
                Edges::One(targets) => targets.iter().map(by_edge).min().unwrap_or(1),
                Edges::All(targets) => sum(&mut targets.iter().map(by_edge)).saturating_add(1),
            };
        }
    };
    let mut each = deciding.iter().map(|term| known(element, *term));
    match is_both {
        true => sum(&mut each),
        false => each.min().unwrap_or(0),
    }
}

/// Finds ways.
struct Finder<'a> {
    vocabulary: &'a Vocabulary,
    model: &'a Model,
    meaning: Meaning,
    costs: Costs,
    /// The restrictions, each at an element, whose ways are told. None is told twice, so that the whole stays small.
    told: BTreeSet<(u16, u16)>,
}

/// The terms that are to be told at the elements that a role leads to.
#[derive(Default)]
struct Leads {
    to: Vec<(u16, Vec<u16>)>,
    is_all: bool,
}

impl Leads {
    fn add(&mut self, element: u16, term: u16) {
        match self.to.iter_mut().find(|(known, _)| *known == element) {
            Some((_, terms)) => terms.push(term),
            None => self.to.push((element, vec![term])),
        }
    }
}

impl Finder<'_> {
    fn cost(&self, element: u16, term: u16) -> u32 {
        self.costs.get(&(element, term)).copied().unwrap_or(0)
    }

    /// An element, with what decides these terms at it.
    fn place(&mut self, element: u16, terms: &[u16]) -> Place {
        let facts = self.facts(element, terms);
        let (mut leads, mut above) = (BTreeMap::<u16, Leads>::new(), false);
        for (atom, _) in &facts {
            let (Saying::Some(role, filler) | Saying::All(role, filler)) = self.saying(*atom) else {
                continue;
            };
            if self.told.insert((element, *atom)) {
                self.lead(element, [*atom, role, filler], leads.entry(role).or_default());
            } else {
                above = true;
            }
        }
        let ways = leads.into_iter().map(|(role, leads)| Way {
            role,
            to: (leads.to.iter().map(|(to, terms)| self.place(*to, terms))).collect(),
            is_all: leads.is_all,
        });
        Place {
            element,
            ways: ways.collect(),
            facts,
            above,
        }
    }

    /// The atoms that decide terms at an element: those that hold first.
    fn facts(&self, element: u16, terms: &[u16]) -> Vec<(u16, bool)> {
        let mut open: Vec<u16> = terms.iter().rev().copied().collect();
        let (mut seen, mut facts) = (BTreeSet::new(), Vec::new());
        while let Some(term) = open.pop() {
            if !seen.insert(term) {
                continue;
            }
            let (mut deciding, is_both) = match self.saying(term) {
                Saying::Not(a) => (vec![a], true),
                Saying::And(a, b) => operands(&self.meaning, element, term, [a, b], true),
                Saying::Or(a, b) => operands(&self.meaning, element, term, [a, b], false),
                Saying::Top | Saying::Bottom | Saying::Within(..) => continue,
                Saying::Name(_) | Saying::Some(..) | Saying::All(..) => {
                    facts.push((term, self.meaning.is_in(element, term)));
                    continue;
                }
            };
            if !is_both {
                deciding.sort_by_key(|term| self.cost(element, *term));
                deciding.truncate(1);
            }
            open.extend(deciding.iter().rev());
        }
        facts.sort_by_key(|(_, holds)| !*holds);
        facts
    }

    /// Adds the edges that decide a restriction at an element.
    fn lead(&self, element: u16, [atom, role, filler]: [u16; 3], leads: &mut Leads) {
        let is_some = matches!(self.saying(atom), Saying::Some(..));
        match edges(self.model, &self.meaning, element, [atom, role, filler], is_some) {
            Edges::All(targets) => {
                leads.is_all = true;
                targets.into_iter().for_each(|to| leads.add(to, filler));
            }
            Edges::One(targets) => {
                if let Some(to) = targets.into_iter().min_by_key(|to| self.cost(*to, filler)) {
                    leads.add(to, filler);
                }
            }
        }
    }

    fn saying(&self, number: u16) -> Saying {
        // Terms of an accepted vocabulary say something.
        self.vocabulary.get(usize::from(number)).saying().unwrap_or(Saying::Top)
    }
}
