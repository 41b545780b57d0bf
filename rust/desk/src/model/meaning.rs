//! What terms mean in a finite interpretation (docs/FORMATS.md, 3): restrictions by its edges.

use super::Model;
use base::vocabulary::{Saying, Vocabulary};
use std::collections::BTreeMap;

/// Which elements of a model belong to each record. Of a statement they are those at which it holds.
pub struct Meaning {
    /// Of each element, whether it belongs to each record.
    truths: BTreeMap<u16, Vec<bool>>,
}

impl Meaning {
    /// The meaning of every record, each out of those before it.
    pub fn of(vocabulary: &Vocabulary, model: &Model) -> Meaning {
        let records = vocabulary.records.len();
        let mut meaning = Meaning {
            truths: (model.elements.iter())
                .map(|element| (*element, vec![false; records]))
                .collect(),
        };
        let types: BTreeMap<u16, Vec<bool>> = (model.elements.iter())
            .map(|element| (*element, vocabulary.truths(*element)))
            .collect();
        for (number, saying) in vocabulary.sayings() {
            for element in &model.elements {
                let named = || types.get(element).is_some_and(|truths| at(truths, number));
                let truth = meaning.truth(model, *element, saying, named);
                meaning.set(*element, number, truth);
            }
        }
        meaning
    }

    /// Whether a record holds at an element; a name does where it is `named`.
    fn truth(&self, model: &Model, element: u16, saying: Saying, named: impl Fn() -> bool) -> bool {
        let is_in = |term| self.is_in(element, term);
        match saying {
            Saying::Top => true,
            Saying::Bottom => false,
            Saying::Name(_) => named(),
            Saying::Not(a) => !is_in(a),
            Saying::And(a, b) => is_in(a) && is_in(b),
            Saying::Or(a, b) => is_in(a) || is_in(b),
            Saying::Some(role, b) => model.edges_from(element, role).any(|to| self.is_in(to, b)),
            Saying::All(role, b) => model.edges_from(element, role).all(|to| self.is_in(to, b)),
            Saying::Within(a, b) => !is_in(a) || is_in(b),
        }
    }

    fn set(&mut self, element: u16, number: u16, truth: bool) {
        let truths = self.truths.get_mut(&element);
        if let Some(place) = truths.and_then(|truths| truths.get_mut(usize::from(number))) {
            *place = truth;
        }
    }

    /// Whether an element belongs to a term.
    pub fn is_in(&self, element: u16, term: u16) -> bool {
        at(self.truths(element), term)
    }

    /// Which records hold at an element.
    pub fn truths(&self, element: u16) -> &[bool] {
        self.truths.get(&element).map(Vec::as_slice).unwrap_or_default()
    }

    /// Whether each of these statements, by its A and B, is satisfied.
    pub fn satisfies(&self, statements: &[(u16, u16)]) -> bool {
        let holds = |truths: &Vec<bool>| statements.iter().all(|(a, b)| !at(truths, *a) || at(truths, *b));
        self.truths.values().all(holds)
    }
}

fn at(truths: &[bool], number: u16) -> bool {
    truths.get(usize::from(number)) == Some(&true)
}
