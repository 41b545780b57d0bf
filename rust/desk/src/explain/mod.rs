//! An element that tells two terms apart, explained: what holds at it, the small counter-model around it, and the way to
//! what tells the terms apart.

mod figure;
#[cfg(test)]
mod tests;
mod way;

use crate::json::Json;
use crate::model::{Edge, Model};
use crate::term::Pair;
use crate::text::vocabulary::Written;
use base::{Failure, Status};
use judge::SURVIVOR_BYTES;
use way::{Place, Way};

/// An element that tells two terms apart.
pub struct Explained<'a> {
    written: &'a Written,
    pair: Pair,
    element: u16,
    truths: Vec<bool>,
    model: Model,
    way: Place,
}

impl<'a> Explained<'a> {
    /// An element of the interpretation that the library wrote, which belongs to just one of two terms.
    pub fn new(
        written: &'a Written,
        pair: Pair,
        element: u16,
        survivors: &[u8; SURVIVOR_BYTES],
    ) -> Result<Explained<'a>, Failure> {
        let vocabulary = written.vocabulary();
        let truths = vocabulary.truths(element);
        let is_in = |number: u32| truths.get(number as usize) == Some(&true);
        let [in_a, in_b] = pair.map(is_in);
        if in_a == in_b {
            let message = "the element belongs to both terms or to none, against what is proved";
            return Err(Failure::new(Status::Defect, message));
        }
        let model = Model::around(element, pair, vocabulary, survivors)?;
        let [a, b] = pair.map(|number| number as u16);
        let way = way::find(vocabulary, &model, if in_a { [a, b] } else { [b, a] });
        Ok(Explained {
            written,
            pair,
            element,
            truths,
            model,
            way,
        })
    }

    /// Whether it belongs to the first of the two terms, and not to the second.
    pub fn is_in_first(&self) -> bool {
        let [a, _] = self.pair;
        self.truths.get(a as usize) == Some(&true)
    }

    /// The names of the term that it belongs to, and of the other.
    fn terms(&self) -> [&'static str; 2] {
        match self.is_in_first() {
            true => ["A", "B"],
            false => ["B", "A"],
        }
    }

    /// What people read.
    pub fn text(&self) -> String {
        let [with, without] = self.terms();
        let listed = |hold: bool| {
            let atoms = self.atoms(self.element, hold);
            match atoms.is_empty() {
                true => "nothing".to_string(),
                false => self.called(&atoms).join(", "),
            }
        };
        let mut text = format!(
            "element {} belongs to {with} and not to {without}\n  at it holds: {}\n  does not hold: {}\n",
            self.element,
            listed(true),
            listed(false),
        );
        self.add_ways(&self.way, 1, &mut text);
        text
    }

    /// What programs read: the element, the counter-model and the steps of the way.
    pub fn json(&self) -> [(&'static str, Json); 3] {
        let mut element = vec![
            ("number", Json::from(self.element)),
            ("belongs", Json::from(if self.is_in_first() { "a" } else { "b" })),
        ];
        element.extend(self.atoms_json(self.element));
        let elements = self.model.elements.iter().map(|element| {
            let number = [("number", Json::from(*element))].into_iter();
            Json::object(number.chain(self.atoms_json(*element)))
        });
        let edges = self.model.edges.iter().map(|edge| self.edge_json(*edge));
        let model = [("elements", Json::list(elements)), ("edges", Json::list(edges))];
        let mut steps = Vec::new();
        self.add_steps(&self.way, &mut steps);
        [
            ("element", Json::object(element)),
            ("model", Json::object(model)),
            ("steps", Json::List(steps)),
        ]
    }

    /// The names and restrictions that hold at an element, or those that do not.
    fn atoms(&self, element: u16, hold: bool) -> Vec<u16> {
        let vocabulary = self.written.vocabulary();
        let truths = vocabulary.truths(element);
        let mut atoms = vocabulary.atoms();
        atoms.retain(|atom| (truths.get(usize::from(*atom)) == Some(&true)) == hold);
        atoms
    }

    fn called(&self, atoms: &[u16]) -> Vec<String> {
        atoms.iter().map(|atom| self.written.called(*atom)).collect()
    }

    fn terms_json(&self, terms: &[u16]) -> Json {
        Json::list(terms.iter().map(|term| self.written.term_json(*term)))
    }

    fn atoms_json(&self, element: u16) -> [(&'static str, Json); 2] {
        [("holds", true), ("does_not_hold", false)]
            .map(|(name, hold)| (name, self.terms_json(&self.atoms(element, hold))))
    }

    fn edge_json(&self, edge: Edge) -> Json {
        Json::object([
            ("from", Json::from(edge.from)),
            ("role", Json::from(edge.role)),
            ("text", Json::from(self.written.role(edge.role))),
            ("to", Json::from(edge.to)),
        ])
    }

    /// Adds a line for each edge on the way from a place, each with what is decisive behind it.
    fn add_ways(&self, place: &Place, depth: usize, text: &mut String) {
        for way in &place.ways {
            let by = format!("{}by {} to", "  ".repeat(depth), self.written.role(way.role));
            for to in &way.to {
                text.push_str(&format!("{by} element {}{}\n", to.element, self.decisive(to)));
                self.add_ways(to, depth + 1, text);
            }
            if way.is_all {
                let else_too = if way.to.is_empty() { "" } else { " else" };
                text.push_str(&format!("{by} nothing{else_too}\n"));
            }
        }
    }

    /// The decisive names at a place; restrictions are told by the ways.
    fn decisive(&self, place: &Place) -> String {
        let is_name = |atom: u16| self.written.vocabulary().get(usize::from(atom)).kind == 3;
        let mut names = Vec::new();
        for (atom, holds) in place.facts.iter().filter(|(atom, _)| is_name(*atom)) {
            let not = if *holds { "" } else { "not " };
            names.push(format!("{not}{}", self.written.called(*atom)));
        }
        let above = if place.above { ", as above" } else { "" };
        match names.is_empty() {
            true => above.to_string(),
            false => format!(": {}{above}", names.join(", ")),
        }
    }

    /// Adds the same for programs, a step for each line.
    fn add_steps(&self, place: &Place, steps: &mut Vec<Json>) {
        for way in &place.ways {
            for to in &way.to {
                steps.push(self.step(place, way, Some(to)));
                self.add_steps(to, steps);
            }
            if way.is_all {
                steps.push(self.step(place, way, None));
            }
        }
    }

    /// A step by a role to a place; or to nothing else.
    fn step(&self, from: &Place, way: &Way, to: Option<&Place>) -> Json {
        let facts = to.map(|to| to.facts.as_slice()).unwrap_or_default();
        let those = |hold: bool| {
            let terms = facts.iter().filter(|(_, holds)| *holds == hold);
            self.terms_json(&terms.map(|(atom, _)| *atom).collect::<Vec<u16>>())
        };
        Json::object([
            ("from", Json::from(from.element)),
            ("role", Json::from(way.role)),
            ("text", Json::from(self.written.role(way.role))),
            ("to", Json::from(to.map(|to| to.element))),
            ("holds", those(true)),
            ("does_not_hold", those(false)),
        ])
    }
}
