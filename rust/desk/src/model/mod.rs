//! Small counter-models: an element that tells two terms apart, and as few other elements as its restrictions need.
//!
//! The survivors of a comparison are an interpretation of up to 4,096 elements. A part of it that has a witness for each
//! restriction that needs one, and only the edges to these witnesses, is an interpretation in which every term has the
//! same elements of that part. So it satisfies the statements, too; that is checked each time by what the terms mean.

mod choice;
mod meaning;
#[cfg(test)]
mod tests;

pub use meaning::Meaning;

use base::vocabulary::Vocabulary;
use base::{Failure, Status};
use judge::SURVIVOR_BYTES;

/// A pair of a role.
#[derive(Clone, Copy, Debug, PartialEq, Eq, PartialOrd, Ord)]
pub struct Edge {
    /// The element that it leads from.
    pub from: u16,
    /// The role.
    pub role: u16,
    /// The element that it leads to.
    pub to: u16,
}

/// A finite interpretation: its elements are types, which say what names have them.
#[derive(Clone, Debug, PartialEq, Eq)]
pub struct Model {
    /// The elements: the one that tells the terms apart, then those that edges lead to, the nearest first.
    pub elements: Vec<u16>,
    /// The edges, in the order of the elements that they lead from.
    pub edges: Vec<Edge>,
}

impl Model {
    /// A small counter-model out of the survivors, around an element that belongs to just one of two terms.
    pub fn around(
        element: u16,
        pair: [u32; 2],
        vocabulary: &Vocabulary,
        survivors: &[u8; SURVIVOR_BYTES],
    ) -> Result<Model, Failure> {
        let model = choice::choose(element, vocabulary, survivors);
        model.check(pair, vocabulary)?;
        Ok(model)
    }

    /// The edges of a role from an element.
    pub fn edges_from(&self, element: u16, role: u16) -> impl Iterator<Item = u16> + '_ {
        let wanted = move |edge: &&Edge| edge.from == element && edge.role == role;
        self.edges.iter().filter(wanted).map(|edge| edge.to)
    }

    /// That it satisfies the statements, that its first element belongs to just one of the terms, and that every record
    /// holds where its type says so: what is shown of it goes by the types.
    fn check(&self, [a, b]: [u32; 2], vocabulary: &Vocabulary) -> Result<(), Failure> {
        let meaning = Meaning::of(vocabulary, self);
        let agrees = |element: &u16| meaning.truths(*element) == vocabulary.truths(*element);
        let [in_a, in_b] = [a, b].map(|term| self.elements.first().map(|first| meaning.is_in(*first, term as u16)));
        let wrong = if !meaning.satisfies(&vocabulary.statements()) {
            "does not satisfy the statements"
        } else if in_a == in_b {
            "does not tell the terms apart"
        } else if !self.elements.iter().all(agrees) {
            "has an element that is not of its type"
        } else {
            return Ok(());
        };
        let message = format!("the counter-model {wrong}, against what is proved");
        Err(Failure::new(Status::Defect, message))
    }
}
