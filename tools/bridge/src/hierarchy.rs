//! The hierarchy of classes that a reasoner's classification writes, read back.

use std::collections::{BTreeMap, BTreeSet};

use crate::emit::{class_name, Language};

#[cfg(test)]
mod tests;

const TOP: &str = "TOP";
const BOTTOM: &str = "BOTTOM";

/// For each class, by its name, those that it is said to be equal to or to lie directly within.
pub struct Hierarchy(BTreeMap<String, BTreeSet<String>>);

impl Hierarchy {
    /// What the file of a classification says. A class that it does not speak of is not there.
    pub fn read(language: Language, text: &str) -> Hierarchy {
        let mut hierarchy = Hierarchy(BTreeMap::new());
        match language {
            Language::Konclude => hierarchy.read_konclude(text),
            Language::Fact => hierarchy.read_fact(text),
        }
        hierarchy
    }

    /// OWL in XML: groups of equal classes, and pairs of which the first lies directly within the second.
    fn read_konclude(&mut self, text: &str) {
        for group in blocks(text, "<EquivalentClasses>", "</EquivalentClasses>") {
            self.add(&iris(group), &[]);
        }
        for pair in blocks(text, "<SubClassOf>", "</SubClassOf>") {
            if let [narrower, broader] = iris(pair).as_slice() {
                self.add(&[narrower], &[broader]);
            }
        }
    }

    /// Lines: a class, or ("A"="B") where some are equal, then those directly above and those directly below in
    /// braces.
    fn read_fact(&mut self, text: &str) {
        for line in text.lines() {
            let mut parts = line.split('{');
            if let (Some(equal), Some(above)) = (parts.next(), parts.next()) {
                self.add(&quoted(equal), &quoted(above));
            }
        }
    }

    /// Classes that are equal, and those that they lie directly within.
    fn add(&mut self, equal: &[&str], above: &[&str]) {
        for class in equal {
            let broader = self.0.entry((*class).to_owned()).or_default();
            broader.extend(equal.iter().chain(above).map(|class| (*class).to_owned()));
        }
    }

    /// Whether the class of a term is there.
    pub fn has(&self, term: u16) -> bool {
        self.0.contains_key(&class_name(term))
    }

    /// Whether the class of one term lies within that of another. The bottom lies within all, and all within the
    /// top, which need not be written.
    pub fn is_within(&self, a: u16, b: u16) -> bool {
        let (a, b) = (class_name(a), class_name(b));
        let above = self.reached(&a);
        above.contains(b.as_str()) || above.contains(BOTTOM) || self.reached(TOP).contains(b.as_str())
    }

    /// A class and those that are reached from it.
    fn reached<'h>(&'h self, class: &'h str) -> BTreeSet<&'h str> {
        let mut found = BTreeSet::from([class]);
        let mut left = vec![class];
        while let Some(class) = left.pop() {
            let broader = self.0.get(class).into_iter().flatten();
            left.extend(broader.map(String::as_str).filter(|class| found.insert(class)));
        }
        found
    }
}

/// What stands between two marks, wherever both do.
fn blocks<'t>(text: &'t str, begin: &'t str, end: &'t str) -> impl Iterator<Item = &'t str> {
    let rests = text.split(begin).skip(1);
    rests.filter_map(move |rest| Some(rest.split_once(end)?.0))
}

/// The classes of an XML text, without what stands before their names.
fn iris(text: &str) -> Vec<&str> {
    let names = blocks(text, "IRI=\"", "\"").filter_map(|iri| Some(iri.rsplit_once('#')?.1));
    names
        .map(|name| match name {
            "Thing" => TOP,
            "Nothing" => BOTTOM,
            _ => name,
        })
        .collect()
}

/// The words in quotation marks.
fn quoted(text: &str) -> Vec<&str> {
    text.split('"').skip(1).step_by(2).collect()
}
