//! A counter-model as a drawing.

use super::way::Place;
use super::Explained;
use crate::drawing::{Arrow, Graph, Node};
use std::collections::BTreeSet;

impl Explained<'_> {
    /// The counter-model, to be drawn: at each element the names and restrictions that hold, and those that do not and are
    /// decisive.
    pub fn graph(&self) -> Graph {
        let [with, without] = self.terms();
        let [a, b] = self.pair.map(|number| self.written.term(number as u16));
        let mut absent = BTreeSet::new();
        add_absent(&self.way, &mut absent);
        let node = |element: &u16| self.node(*element, &absent);
        let place = |element: u16| self.model.elements.iter().position(|other| *other == element);
        let arrow = |edge: &crate::model::Edge| {
            Some(Arrow {
                from: place(edge.from)?,
                to: place(edge.to)?,
                label: self.written.role(edge.role),
            })
        };
        Graph {
            title: format!(
                "A counter-model: element {} belongs to {with} and not to {without}",
                self.element
            ),
            description: format!("A: {a}\nB: {b}\n{}", self.text()),
            captions: vec![format!("A: {a}"), format!("B: {b}")],
            nodes: self.model.elements.iter().map(node).collect(),
            arrows: self.model.edges.iter().filter_map(arrow).collect(),
        }
    }

    fn node(&self, element: u16, absent: &BTreeSet<(u16, u16)>) -> Node {
        let mut lines = vec![format!("element {element}")];
        if element == self.element {
            let [with, without] = self.terms();
            lines.push(format!("belongs to {with}, not to {without}"));
        }
        lines.extend(self.called(&self.atoms(element, true)));
        for atom in self.atoms(element, false) {
            if absent.contains(&(element, atom)) {
                lines.push(format!("not {}", self.written.called(atom)));
            }
        }
        if lines.len() == 1 {
            lines.push("nothing holds".to_string());
        }
        Node {
            name: format!("e{element}"),
            lines,
        }
    }
}

/// Adds what does not hold and is decisive on the way from a place.
fn add_absent(place: &Place, absent: &mut BTreeSet<(u16, u16)>) {
    let facts = place.facts.iter().filter(|(_, holds)| !*holds);
    absent.extend(facts.map(|(atom, _)| (place.element, *atom)));
    for to in place.ways.iter().flat_map(|way| &way.to) {
        add_absent(to, absent);
    }
}
