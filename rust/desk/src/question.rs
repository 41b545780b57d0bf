//! Questions about one vocabulary. Each is put to the library's comparison; where one needs a term that no record says, it is
//! put to a copy with that record at its end. The added record is no atom, so that elements are the same in both, and a header
//! of edition 2 holds the true number of atoms.

#[cfg(test)]
mod tests;

use base::vocabulary::{Saying, Vocabulary};
use judge::{Comparison, Refusal, Verdict};
use std::collections::BTreeMap;

/// Questions about a vocabulary, with what is known of it so far.
pub struct Questions {
    bytes: Vec<u8>,
    vocabulary: Vocabulary,
    /// What was found out of the terms that were asked about.
    empty: BTreeMap<u32, Option<bool>>,
    /// Whether no comparison had a survivor, once there was one.
    contradictory: Option<bool>,
    /// What the last comparison wrote.
    survivors: [u8; judge::SURVIVOR_BYTES],
}

/// Whether one term lies within another.
#[derive(Clone, Copy, Debug, PartialEq, Eq)]
pub enum Within {
    /// Equal where it does; else the element belongs to the first and not to the second.
    Answer(Comparison),
    /// There is no room for the record that is needed, and none says it.
    NoRoom,
}

impl Questions {
    /// Questions about a vocabulary, accepted or not.
    pub fn new(bytes: &[u8]) -> Questions {
        Questions {
            bytes: bytes.to_vec(),
            vocabulary: Vocabulary::read(bytes),
            empty: BTreeMap::new(),
            contradictory: None,
            survivors: [0; judge::SURVIVOR_BYTES],
        }
    }

    /// The survivors, once a question was answered. They do not hang on the terms that were asked about.
    pub fn survivors(&self) -> &[u8; judge::SURVIVOR_BYTES] {
        &self.survivors
    }

    /// Whether two terms are equal.
    pub fn compare(&mut self, a: u32, b: u32) -> Result<Comparison, Refusal> {
        let answer = judge::compare(&self.bytes, a, b, &mut self.survivors)?;
        self.contradictory = Some(answer.survivors == 0);
        Ok(answer)
    }

    /// Whether A lies within B: whether "A and B" is equal to A. A record "A or B" serves as well, compared with B.
    pub fn within(&mut self, a: u32, b: u32) -> Result<Within, Refusal> {
        // Numbers that name no term are refused as in a comparison; in the copy they could name the added record.
        let [Some(first), Some(second)] = [a, b].map(|number| self.term(number)) else {
            return self.compare(a, b).map(Within::Answer);
        };
        let (and, or) = (Saying::And, Saying::Or);
        let answer = if let Some(both) = self.find([and(first, second), and(second, first)]) {
            self.compare(a, both)?
        } else if let Some(either) = self.find([or(first, second), or(second, first)]) {
            self.compare(either, b)?
        } else if let Some((copy, both)) = self.with(and(first, second)) {
            judge::compare(&copy, a, both, &mut self.survivors)?
        } else {
            // Equal terms lie within each other; it is refused here, too, if that is for another reason than the room.
            match self.compare(a, b)? {
                answer if answer.verdict == Verdict::Equal => answer,
                _ => return Ok(Within::NoRoom),
            }
        };
        Ok(Within::Answer(answer))
    }

    /// Whether nothing can belong to a term in any interpretation that satisfies the statements: whether it is equal to
    /// bottom. Nothing where there is no room to ask.
    pub fn is_empty(&mut self, term: u32) -> Result<Option<bool>, Refusal> {
        if let Some(known) = self.empty.get(&term) {
            return Ok(*known);
        }
        let known = self.ask_empty(term)?;
        self.empty.insert(term, known);
        Ok(known)
    }

    fn ask_empty(&mut self, term: u32) -> Result<Option<bool>, Refusal> {
        let answer = if self.term(term).is_none() {
            self.compare(term, term)?
        } else if let Some(bottom) = self.find([Saying::Bottom]) {
            self.compare(term, bottom)?
        } else if let Some((copy, bottom)) = self.with(Saying::Bottom) {
            judge::compare(&copy, term, bottom, &mut self.survivors)?
        } else {
            self.compare(term, term)?;
            return Ok(None);
        };
        Ok(Some(answer.verdict == Verdict::Equal))
    }

    /// Whether the statements contradict each other, so that no interpretation satisfies them. Refused where the
    /// vocabulary is, or has too many atoms.
    pub fn is_contradictory(&mut self) -> Result<bool, Refusal> {
        if let Some(known) = self.contradictory {
            return Ok(known);
        }
        judge::check_vocabulary(&self.bytes)?;
        let term = self.vocabulary.numbered().find(|(_, record)| record.is_term());
        // Without a term there is no statement.
        let Some((term, _)) = term else {
            return Ok(false);
        };
        let answer = self.compare(term as u32, term as u32)?;
        Ok(answer.survivors == 0)
    }

    /// The number of a term, where it is one.
    fn term(&self, number: u32) -> Option<u16> {
        let record = self.vocabulary.get(usize::try_from(number).ok()?);
        u16::try_from(number).ok().filter(|_| record.is_term())
    }

    /// The first record that says one of these.
    fn find<const N: usize>(&self, wanted: [Saying; N]) -> Option<u32> {
        let says = |saying: Option<Saying>| saying.is_some_and(|saying| wanted.contains(&saying));
        let mut found = self.vocabulary.numbered().filter(|(_, record)| says(record.saying()));
        found.next().map(|(number, _)| number as u32)
    }

    /// A copy with one record more, and the number of that, where there is room.
    fn with(&self, saying: Saying) -> Option<(Vec<u8>, u32)> {
        let records = self.vocabulary.records.len();
        let mut copy = self.bytes.to_vec();
        copy.extend(saying.record(0).bytes());
        (records < judge::RECORDS).then_some((copy, records as u32))
    }
}
