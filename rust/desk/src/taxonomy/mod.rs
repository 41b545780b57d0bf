//! The taxonomy of a vocabulary's names, for display: classes of equal names, each with its nearest broader classes, as the
//! library's classification wrote them. Which names are equal or broader is the library's to say; whether anything belongs to
//! a name is read off the survivors that it wrote.

#[cfg(test)]
mod tests;

use base::vocabulary::{Saying, Vocabulary};
use judge::{Classification, Refusal, Relation, SURVIVOR_BYTES, TAXONOMY_BYTES};
use std::collections::BTreeSet;

/// Names that are equal, so that all is the same of them.
#[derive(Debug, PartialEq, Eq)]
pub struct Class {
    /// The records of the names, in order.
    pub names: Vec<u16>,
    /// The nearest broader classes, by their numbers.
    pub broader: Vec<usize>,
    /// Whether nothing can belong to the names, whatever satisfies the statements: they lie within every name.
    pub empty: bool,
    /// Whether everything belongs to them, whatever satisfies the statements: every name lies within them.
    pub full: bool,
}

/// The names of a vocabulary, in order from narrower to broader.
pub struct Taxonomy {
    /// The classes, in the order of their first names.
    pub classes: Vec<Class>,
    /// The counts.
    pub answer: Classification,
}

impl Taxonomy {
    /// Asks the library about the names of a vocabulary.
    pub fn ask(bytes: &[u8]) -> Result<Taxonomy, Refusal> {
        let (mut survivors, mut entries) = ([0; SURVIVOR_BYTES], [0; TAXONOMY_BYTES]);
        let answer = judge::classify(bytes, &mut survivors, &mut entries)?;
        let classes = classes(&Vocabulary::read(bytes), &survivors, &entries);
        Ok(Taxonomy { classes, answer })
    }

    /// Whether no interpretation satisfies the statements.
    pub fn is_contradictory(&self) -> bool {
        self.answer.survivors == 0
    }

    /// Whether no class is broader than itself, be it through others. Else a tree of them would have no end.
    pub fn is_ordered(&self) -> bool {
        let mut left: BTreeSet<usize> = (0..self.classes.len()).collect();
        // The broadest of what is left go, until all have gone.
        loop {
            let is_below = |number: &usize| self.broader(*number).any(|broader| left.contains(&broader));
            let below: BTreeSet<usize> = left.iter().copied().filter(is_below).collect();
            if below.len() == left.len() {
                return left.is_empty();
            }
            left = below;
        }
    }

    /// The nearest broader classes of a class.
    fn broader(&self, number: usize) -> impl Iterator<Item = usize> + '_ {
        let class = self.classes.get(number);
        class.into_iter().flat_map(|class| class.broader.iter().copied())
    }

    /// The classes below which a class stands in a tree whose top is owl:Thing, which a full class is equal to.
    pub fn above(&self, number: usize) -> Vec<usize> {
        let is_full = |number: &usize| self.classes.get(*number).is_some_and(|class| class.full);
        self.broader(number).filter(|broader| !is_full(broader)).collect()
    }

    /// The classes that stand in such a tree directly below a class, or below its top. An empty one stands nowhere in it,
    /// since it lies within all.
    pub fn below(&self, above: Option<usize>) -> impl Iterator<Item = (usize, &Class)> + '_ {
        let shown = self.classes.iter().enumerate();
        let shown = shown.filter(|(_, class)| !class.empty && !class.full);
        shown.filter(move |(number, _)| match (above, self.above(*number).as_slice()) {
            (None, classes) => classes.is_empty(),
            (Some(above), classes) => classes.contains(&above),
        })
    }

    /// The names of the vocabulary in record order, each with its class.
    pub fn names<'a>(&'a self) -> Vec<(u16, &'a Class)> {
        let each = |class: &'a Class| class.names.iter().map(move |name| (*name, class));
        let mut names: Vec<(u16, &Class)> = self.classes.iter().flat_map(each).collect();
        names.sort_by_key(|(name, _)| *name);
        names
    }

    /// The names of the nearest broader classes of a class.
    pub fn broader_names(&self, class: &Class) -> Vec<u16> {
        let classes = class.broader.iter().filter_map(|number| self.classes.get(*number));
        let mut names: Vec<u16> = classes.flat_map(|class| class.names.iter().copied()).collect();
        names.sort_unstable();
        names
    }
}

/// The classes of a taxonomy that was written.
fn classes(vocabulary: &Vocabulary, survivors: &[u8], entries: &[u8]) -> Vec<Class> {
    let names = names(vocabulary);
    let are = |first, second, relation| judge::relation(entries, names.len(), first, second) == relation;
    // A class is known by the first of its names.
    let first = |name: usize| (0..names.len()).find(|other| are(name, *other, Relation::Equal));
    let firsts: Vec<usize> = (0..names.len()).filter(|name| first(*name) == Some(*name)).collect();
    let (some, all) = belonging(survivors);
    let class = |at: &usize| Class {
        names: (names.iter().enumerate())
            .filter(|(other, _)| are(*at, *other, Relation::Equal))
            .map(|(_, (_, record))| *record)
            .collect(),
        broader: (firsts.iter().enumerate())
            .filter(|(_, other)| are(*at, **other, Relation::NearestBroader))
            .map(|(number, _)| number)
            .collect(),
        empty: names.get(*at).is_some_and(|(atom, _)| some >> atom & 1 == 0),
        full: names.get(*at).is_some_and(|(atom, _)| all >> atom & 1 == 1),
    };
    firsts.iter().map(class).collect()
}

/// The names of a vocabulary, each by its number among the atoms and its record.
fn names(vocabulary: &Vocabulary) -> Vec<(usize, u16)> {
    let is_name = |number: u16| matches!(vocabulary.get(usize::from(number)).saying(), Some(Saying::Name(_)));
    let atoms = vocabulary.atoms().into_iter().enumerate();
    atoms.filter(|(_, record)| is_name(*record)).collect()
}

/// The atoms to which some survivor belongs, and those to which all do, as bits.
fn belonging(survivors: &[u8]) -> (u16, u16) {
    let survives = |element: u16| {
        let byte = survivors.get(usize::from(element / 8));
        byte.is_some_and(|byte| byte >> (element % 8) & 1 == 1)
    };
    let elements = (0..8 * SURVIVOR_BYTES as u16).filter(|element| survives(*element));
    elements.fold((0, u16::MAX), |(some, all), element| (some | element, all & element))
}
