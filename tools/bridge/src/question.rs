//! A vocabulary with a pair of terms, the library's answer, and the choice of a pair.

use base::vocabulary::Vocabulary;
use base::{Failure, Status};
use judge::{Comparison, Refusal, Verdict, SURVIVOR_BYTES};

use crate::making::without_chain;
use crate::meaning;
use crate::random::Random;

/// Which pairs are looked for.
#[derive(Clone, Copy, Debug, PartialEq, Eq)]
pub enum Wanted {
    /// Any, even a term and itself.
    Any,
    /// Two terms that are different.
    Different,
    /// Two terms that are equal because of the statements.
    Equal,
}

/// Are these two terms equal?
pub struct Question {
    /// The vocabulary.
    pub vocabulary: Vocabulary,
    /// Its bytes.
    pub bytes: Vec<u8>,
    /// A term.
    pub a: u16,
    /// Another.
    pub b: u16,
}

impl Question {
    /// A question about a vocabulary.
    pub fn new(vocabulary: Vocabulary, a: u16, b: u16) -> Question {
        Question {
            bytes: vocabulary.bytes(),
            vocabulary,
            a,
            b,
        }
    }

    /// The same about numbers that people gave; the library refuses those that are no terms.
    pub fn asked(vocabulary: Vocabulary, a: u32, b: u32) -> Result<Question, Failure> {
        compare(&vocabulary.bytes(), a, b)?;
        Ok(Question::new(vocabulary, a as u16, b as u16))
    }

    /// The library's answer, and the survivors that it wrote.
    pub fn answer(&self) -> Result<(Comparison, [u8; SURVIVOR_BYTES]), Failure> {
        compare(&self.bytes, self.a.into(), self.b.into())
    }

    /// Whether the terms are equal.
    pub fn is_equal(&self) -> Result<bool, Failure> {
        Ok(self.answer()?.0.verdict == Verdict::Equal)
    }

    /// Whether they are one term, or equal with no statement at all.
    pub fn is_trivial(&self) -> Result<bool, Failure> {
        Ok(self.a == self.b || Question::new(without_chain(&self.vocabulary), self.a, self.b).is_equal()?)
    }

    /// For Different, whether the survivors written tell the terms apart, by the meaning alone.
    pub fn is_confirmed(&self) -> Result<bool, Failure> {
        let (comparison, survivors) = self.answer()?;
        Ok(match comparison.verdict {
            Verdict::Equal => false,
            Verdict::Different { element } => {
                meaning::tells_apart(&self.vocabulary, &survivors, self.a, self.b, element)
            }
        })
    }

    /// Whether no interpretation satisfies the statements.
    pub fn is_inconsistent(&self) -> Result<bool, Failure> {
        Ok(self.answer()?.0.survivors == 0)
    }

    fn is_wanted(&self, wanted: Wanted) -> Result<bool, Failure> {
        Ok(match wanted {
            Wanted::Any => true,
            Wanted::Different => !self.is_equal()?,
            Wanted::Equal => self.is_equal()? && !self.is_trivial()?,
        })
    }
}

/// The library's answer about two terms, and the survivors that it wrote.
pub fn compare(bytes: &[u8], a: u32, b: u32) -> Result<(Comparison, [u8; SURVIVOR_BYTES]), Failure> {
    let mut survivors = [0; SURVIVOR_BYTES];
    let refused = |refusal: Refusal| Failure::new(Status::Refused, refusal.to_string());
    let comparison = judge::compare(bytes, a, b, &mut survivors).map_err(refused)?;
    Ok((comparison, survivors))
}

/// How many pairs of a vocabulary are tried.
const TRIES: usize = 60;

/// A question of the wanted sort about a vocabulary, if a few tries find one.
pub fn choose(random: &mut Random, vocabulary: &Vocabulary, wanted: Wanted) -> Result<Option<Question>, Failure> {
    let terms = vocabulary.terms();
    for _ in 0..TRIES {
        let question = Question::new(vocabulary.clone(), random.pick(&terms), random.pick(&terms));
        if question.is_wanted(wanted)? {
            return Ok(Some(question));
        }
    }
    Ok(None)
}
