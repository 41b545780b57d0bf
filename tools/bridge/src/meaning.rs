//! The interpretation that a comparison writes, read back as docs/FORMATS.md, section 3, says, and the
//! terms' meaning in it.
//!
//! This uses nothing of the library but the bytes it wrote, so that it settles whether a Different is right.

use base::vocabulary::{Saying, Vocabulary};

#[cfg(test)]
mod tests;

/// For each record number, whether the record is true at each element, by the element's place in the list.
type Truths = Vec<Vec<bool>>;

/// Whether the survivors are an interpretation that satisfies the statements, and in which the element is in just one
/// of the terms `a` and `b`.
pub fn tells_apart(vocabulary: &Vocabulary, survivors: &[u8], a: u16, b: u16, element: u16) -> bool {
    let elements = elements(survivors);
    let meaning = meaning(vocabulary, &elements);
    let satisfied = |(a, b): &(u16, u16)| {
        let pairs = column(&meaning, *a).iter().zip(column(&meaning, *b));
        pairs.into_iter().all(|(in_a, in_b)| !in_a || *in_b)
    };
    let place = elements.iter().position(|other| *other == element);
    place.is_some_and(|place| at(&meaning, a, place) != at(&meaning, b, place))
        && vocabulary.statements().iter().all(satisfied)
}

/// The types whose bits are set.
pub fn elements(survivors: &[u8]) -> Vec<u16> {
    let byte = |t: &u16| survivors.get(usize::from(t / 8));
    let is_set = |t: &u16| byte(t).is_some_and(|byte| byte >> (t % 8) & 1 == 1);
    (0..1 << judge::ATOMS).filter(is_set).collect()
}

fn column(truths: &Truths, number: u16) -> &[bool] {
    truths.get(usize::from(number)).map_or(&[], Vec::as_slice)
}

fn at(truths: &Truths, number: u16, place: usize) -> bool {
    column(truths, number).get(place).copied().unwrap_or(false)
}

/// The elements of each term, by the section on meaning: some and all by the pairs of their role.
fn meaning(vocabulary: &Vocabulary, elements: &[u16]) -> Truths {
    let types = Types(elements.iter().map(|element| vocabulary.truths(*element)).collect());
    let mut meaning = vec![Vec::new()]; // the header has none
    for (number, record) in vocabulary.numbered() {
        let belongs = |place: usize| match record.saying() {
            Some(Saying::Top) => true,
            Some(Saying::Name(_)) => types.at(place, number),
            Some(Saying::Not(a)) => !at(&meaning, a, place),
            Some(Saying::And(a, b)) => at(&meaning, a, place) && at(&meaning, b, place),
            Some(Saying::Or(a, b)) => at(&meaning, a, place) || at(&meaning, b, place),
            Some(Saying::Some(role, b)) => types.successors(vocabulary, role, place).any(|to| at(&meaning, b, to)),
            Some(Saying::All(role, b)) => types.successors(vocabulary, role, place).all(|to| at(&meaning, b, to)),
            None | Some(Saying::Bottom | Saying::Within(..)) => false,
        };
        meaning.push((0..elements.len()).map(belongs).collect());
    }
    meaning
}

/// For each element, by its place in the list, whether each record holds at its type.
struct Types(Vec<Vec<bool>>);

impl Types {
    fn at(&self, place: usize, number: usize) -> bool {
        let truths = self.0.get(place);
        truths.and_then(|truths| truths.get(number)).copied().unwrap_or(false)
    }

    /// The elements that a role's pairs lead to from the element at `from`: the allowed ones.
    fn successors<'t>(
        &'t self,
        vocabulary: &Vocabulary,
        role: u16,
        from: usize,
    ) -> impl Iterator<Item = usize> + use<'t> {
        let bounds = vocabulary.sayings().filter_map(|(number, saying)| match saying {
            // What is false of all elements led to, and what is true of them.
            Saying::Some(r, b) if r == role && !self.at(from, number.into()) => Some((b, false)),
            Saying::All(r, b) if r == role && self.at(from, number.into()) => Some((b, true)),
            _ => None,
        });
        let bounds: Vec<(u16, bool)> = bounds.collect();
        let is_allowed = move |to: &usize| bounds.iter().all(|(b, truth)| self.at(*to, (*b).into()) == *truth);
        (0..self.0.len()).filter(is_allowed)
    }
}
