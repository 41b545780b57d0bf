//! What two vocabularies say, compared: a term is what it is made of, whatever the numbers of its records.

use crate::text::vocabulary::Written;
use base::vocabulary::{Saying, Vocabulary};
use std::collections::BTreeMap;

/// What a record says, by a number that is the same for all records of both vocabularies that say it.
pub type Shape = usize;

/// A vocabulary that is compared with another.
pub struct Side {
    /// Its records, written out.
    pub written: Written,
    /// What each record says; nothing for the header.
    shapes: Vec<Option<Shape>>,
    /// Which records are statements on the chain.
    chained: Vec<bool>,
}

impl Side {
    /// What a record says.
    pub fn shape(&self, number: u16) -> Option<Shape> {
        self.shapes.get(usize::from(number)).copied().flatten()
    }

    /// The same, where it is a term.
    pub fn term(&self, number: u32) -> Option<Shape> {
        let number = u16::try_from(number).ok()?;
        let is_term = self.written.vocabulary().get(usize::from(number)).is_term();
        self.shape(number).filter(|_| is_term)
    }

    /// The first record that says something.
    pub fn first(&self, shape: Shape) -> Option<u16> {
        let found = self.shapes.iter().position(|other| *other == Some(shape));
        found.and_then(|number| u16::try_from(number).ok())
    }

    /// Whether a record is a statement on the chain.
    pub fn is_chained(&self, number: u16) -> bool {
        self.chained.get(usize::from(number)) == Some(&true)
    }

    /// A record as it is shown: with what people call it, and `off` where it is a statement off the chain.
    pub fn line(&self, number: u16) -> String {
        let record = self.written.vocabulary().get(usize::from(number));
        let off = if record.is_term() || self.is_chained(number) {
            ""
        } else {
            "off "
        };
        format!("{number}: {off}{}", self.written.called(number))
    }

    /// The first other record that says the same as one.
    pub fn same(&self, number: u16) -> Option<u16> {
        self.first(self.shape(number)?).filter(|first| *first != number)
    }
}

/// What records say, each once.
#[derive(Default)]
pub struct Shapes(BTreeMap<(u8, usize, usize), Shape>);

impl Shapes {
    /// What the records of an accepted vocabulary say, whose terms come before what is made of them.
    pub fn side(&mut self, written: Written) -> Side {
        let vocabulary = written.vocabulary();
        let mut shapes = vec![None; vocabulary.records.len()];
        for (number, saying) in vocabulary.sayings() {
            let of = |operand: u16| shapes.get(usize::from(operand)).copied().flatten();
            let shape = key(saying, of).map(|key| self.shape(key));
            if let Some(place) = shapes.get_mut(usize::from(number)) {
                *place = shape;
            }
        }
        Side {
            chained: vocabulary.chained(),
            shapes,
            written,
        }
    }

    fn shape(&mut self, key: (u8, usize, usize)) -> Shape {
        let next = self.0.len();
        *self.0.entry(key).or_insert(next)
    }
}

/// What something is made of: its kind, and labels, roles and what the operands say.
fn key(saying: Saying, of: impl Fn(u16) -> Option<Shape>) -> Option<(u8, usize, usize)> {
    let kind = saying.record(0).kind;
    let (first, second) = match saying {
        Saying::Top | Saying::Bottom => (0, 0),
        Saying::Name(label) => (usize::from(label), 0),
        Saying::Not(a) => (of(a)?, 0),
        Saying::And(a, b) | Saying::Or(a, b) | Saying::Within(a, b) => (of(a)?, of(b)?),
        Saying::Some(role, b) | Saying::All(role, b) => (usize::from(role), of(b)?),
    };
    Some((kind, first, second))
}

/// Which records of two vocabularies say the same.
#[derive(Debug, Default, PartialEq, Eq)]
pub struct Matched {
    /// A record of the old one, and the record of the new one that says the same. No record has two.
    pub pairs: Vec<(u16, u16)>,
    /// The records of the old one without another.
    pub removed: Vec<u16>,
    /// The records of the new one without another.
    pub added: Vec<u16>,
}

/// Which records of two vocabularies say the same. Of several that do, those on the chain go with those on the chain, and
/// those that kept their number with each other.
pub fn matched(old: &Side, new: &Side) -> Matched {
    let mut left: BTreeMap<Shape, Vec<u16>> = BTreeMap::new();
    for (number, shape) in new.numbered() {
        left.entry(shape).or_default().push(number);
    }
    let mut matched = Matched::default();
    let mut waiting: Vec<(u16, Shape)> = old.numbered().collect();
    let is_like = |a: u16, b: u16| old.is_chained(a) == new.is_chained(b);
    let strictness: [&dyn Fn(u16, u16) -> bool; 3] = [&|a, b| a == b && is_like(a, b), &is_like, &|_, _| true];
    for fits in strictness {
        waiting.retain(|(number, shape)| {
            let others = left.entry(*shape).or_default();
            let Some(at) = others.iter().position(|other| fits(*number, *other)) else {
                return true;
            };
            matched.pairs.push((*number, others.remove(at)));
            false
        });
    }
    matched.pairs.sort_unstable();
    matched.removed = waiting.into_iter().map(|(number, _)| number).collect();
    matched.added = left.into_values().flatten().collect();
    matched.added.sort_unstable();
    matched
}

impl Side {
    /// What each record says, with its number.
    fn numbered(&self) -> impl Iterator<Item = (u16, Shape)> + '_ {
        let shapes = self.shapes.iter().enumerate();
        shapes.filter_map(|(number, shape)| Some((u16::try_from(number).ok()?, (*shape)?)))
    }
}

/// The header of a vocabulary: its number of roles, and its edition.
pub fn header(vocabulary: &Vocabulary) -> [u16; 2] {
    let header = vocabulary.get(0);
    [header.b, u16::from(header.second)]
}
