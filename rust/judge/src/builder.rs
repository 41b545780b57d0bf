//! A vocabulary that is written record by record.

use crate::{add_statement, add_term, check_vocabulary, make_vocabulary, set_edition};
use crate::{Edition, Refusal, Rule, RECORD_BYTES, VOCABULARY_BYTES};

/// A vocabulary that is written record by record, by the library's calls, in a buffer that is owned or lent: an array, a
/// vector, `&mut [u8]`. Each method that adds a record answers its number, by which later ones name it; one that is refused
/// changes nothing. The bytes in use are an accepted vocabulary at any time, as long as nothing but the builder writes to
/// the buffer.
///
/// ```
/// // Returned samples are under relief.
/// let mut terms = judge::Builder::new(0)?;
/// let [sample, returned, relief] = [terms.name(1)?, terms.name(2)?, terms.name(3)?];
/// let both = terms.and(sample, returned)?;
/// terms.statement(both, relief)?;
/// assert_eq!(judge::check_vocabulary(terms.as_bytes()), Ok(6));
///
/// let refusal = terms.not(9).unwrap_err(); // there is no term 9
/// assert_eq!((refusal.rule, refusal.place), (judge::Rule::TermNumber, 6));
/// # Ok::<(), judge::Refusal>(())
/// ```
#[derive(Clone, Debug)]
pub struct Builder<B = [u8; VOCABULARY_BYTES]> {
    buffer: B,
    used: usize,
}

impl Builder {
    /// An empty vocabulary of so many roles, with room for any that there is.
    pub fn new(roles: u32) -> Result<Builder, Refusal> {
        Builder::in_buffer([0; VOCABULARY_BYTES], roles)
    }
}

impl<B: AsRef<[u8]> + AsMut<[u8]>> Builder<B> {
    /// An empty vocabulary of so many roles at the front of a buffer, as far as which it can grow.
    ///
    /// ```
    /// let mut buffer = [0; 16];
    /// let mut terms = judge::Builder::in_buffer(&mut buffer[..], 0)?;
    /// assert_eq!(terms.top(), Ok(1));
    /// assert_eq!(terms.top().unwrap_err().rule, judge::Rule::Room);
    /// # Ok::<(), judge::Refusal>(())
    /// ```
    pub fn in_buffer(mut buffer: B, roles: u32) -> Result<Builder<B>, Refusal> {
        let used = make_vocabulary(buffer.as_mut(), roles)?;
        Ok(Builder { buffer, used })
    }

    /// The vocabulary in the first `used` bytes of a buffer, to go on from. It has to be accepted, and a length past the
    /// buffer is refused as an addition would be (1).
    ///
    /// ```
    /// let mut bytes = vec![16, 1, 0, 0, 0, 0, 0, 0, 3, 0, 7, 0, 0, 0, 0, 0]; // a header and a name
    /// let used = bytes.len();
    /// bytes.resize(judge::VOCABULARY_BYTES, 0);
    /// assert_eq!(judge::Builder::resume(bytes, used)?.not(1), Ok(2));
    /// # Ok::<(), judge::Refusal>(())
    /// ```
    pub fn resume(buffer: B, used: usize) -> Result<Builder<B>, Refusal> {
        let past = Refusal {
            rule: Rule::VocabularyLength,
            place: 0,
        };
        check_vocabulary(buffer.as_ref().get(..used).ok_or(past)?)?;
        Ok(Builder { buffer, used })
    }

    /// Gives the vocabulary a header of an edition, which additions keep. A new one has edition 2.
    ///
    /// ```
    /// let mut terms = judge::Builder::new(0)?;
    /// terms.set_edition(judge::Edition::One)?;
    /// terms.top()?;
    /// assert_eq!(terms.as_bytes()[..8], [16, 1, 0, 0, 0, 0, 0, 0]);
    /// # Ok::<(), judge::Refusal>(())
    /// ```
    pub fn set_edition(&mut self, edition: Edition) -> Result<(), Refusal> {
        let used = self.buffer.as_mut().get_mut(..self.used);
        set_edition(used.unwrap_or_default(), edition)
    }

    /// The bytes in use: the vocabulary.
    pub fn as_bytes(&self) -> &[u8] {
        self.buffer.as_ref().get(..self.used).unwrap_or_default()
    }

    /// The number of records, header included.
    pub fn records(&self) -> usize {
        self.used / RECORD_BYTES
    }

    /// The buffer, and the number of bytes in use at its front.
    pub fn into_inner(self) -> (B, usize) {
        (self.buffer, self.used)
    }

    /// Adds top, to which all elements belong.
    pub fn top(&mut self) -> Result<u16, Refusal> {
        self.term(1, 0, 0)
    }

    /// Adds bottom, to which no element belongs.
    pub fn bottom(&mut self) -> Result<u16, Refusal> {
        self.term(2, 0, 0)
    }

    /// Adds a name with a label that no earlier name has.
    pub fn name(&mut self, label: u16) -> Result<u16, Refusal> {
        self.term(3, label, 0)
    }

    /// Adds the complement of a term.
    pub fn not(&mut self, a: u16) -> Result<u16, Refusal> {
        self.term(4, a, 0)
    }

    /// Adds the intersection of two terms.
    pub fn and(&mut self, a: u16, b: u16) -> Result<u16, Refusal> {
        self.term(5, a, b)
    }

    /// Adds the union of two terms.
    pub fn or(&mut self, a: u16, b: u16) -> Result<u16, Refusal> {
        self.term(6, a, b)
    }

    /// Adds the restriction "some role to b".
    pub fn some(&mut self, role: u16, b: u16) -> Result<u16, Refusal> {
        self.term(7, role, b)
    }

    /// Adds the restriction "all role to b".
    pub fn all(&mut self, role: u16, b: u16) -> Result<u16, Refusal> {
        self.term(8, role, b)
    }

    /// Adds a term by the fields of its record; those that the kind does not use are 0.
    pub fn term(&mut self, kind: u8, a: u16, b: u16) -> Result<u16, Refusal> {
        let length = add_term(self.buffer.as_mut(), self.used, kind, a, b)?;
        Ok(self.grow(length))
    }

    /// Adds the statement that a term lies within another, at the end of the chain.
    pub fn statement(&mut self, a: u16, b: u16) -> Result<u16, Refusal> {
        let length = add_statement(self.buffer.as_mut(), self.used, a, b)?;
        Ok(self.grow(length))
    }

    /// Takes the new length, and answers the number of the record that was added. There are at most 512, so it fits.
    fn grow(&mut self, length: usize) -> u16 {
        let number = self.records() as u16;
        self.used = length;
        number
    }
}
