//! The records of a script: their words, its terms and its chain.

use crate::script::columns::Matrix;

/// The eight words of a script record.
pub type Words = [u16; 8];

/// The bytes of a script record.
pub const RECORD_BYTES: usize = 16;
/// The most records of a script, header included.
pub const MOST_RECORDS: usize = 2048;

/// The word of a record's kind.
pub const KIND: usize = 0;
/// The header's word of the query's A.
pub const QUERY_A: usize = 1;
/// The header's word of the query's B.
pub const QUERY_B: usize = 2;
/// The header's word of the first step.
pub const FIRST: usize = 3;
/// A term's word of the function's record.
pub const FUNCTION: usize = 1;
/// A term's word of the term that the function is applied to.
pub const INNER: usize = 2;
/// The word of a start's column.
pub const START_COLUMN: usize = 1;
/// An extension's word of the owner.
pub const OWNER: usize = 1;
/// An extension's word of the column.
pub const COLUMN: usize = 2;
/// An extension's word of the term for x.
pub const X: usize = 3;
/// An extension's word of the term for y.
pub const Y: usize = 4;
/// An extension's word of the position.
pub const POSITION: usize = 5;
/// The word of a reduction's frame.
pub const FRAME: usize = 1;
/// The word of a step's next.
pub const NEXT: usize = 7;

/// The header's kind.
pub const HEADER: u16 = 32;
/// The kind of the constant.
pub const CONSTANT: u16 = 1;
/// The kind of a function's term.
pub const TERM: u16 = 2;
/// The kind of a start.
pub const START: u16 = 3;
/// The kind of an extension.
pub const EXTENSION: u16 = 4;
/// The kind of a reduction.
pub const REDUCTION: u16 = 5;

/// The number of the constant's record.
pub const CONSTANT_PLACE: u16 = 1;

/// Whether a record of a kind is a step.
pub fn is_step(kind: u16) -> bool {
    [START, EXTENSION, REDUCTION].contains(&kind)
}

/// The record of a step with its words from w1 on; its next is 0.
pub fn step(kind: u16, words: &[u16]) -> Words {
    let mut record = [0; 8];
    let given = std::iter::once(&kind).chain(words);
    for (word, value) in record.iter_mut().zip(given) {
        *word = *value;
    }
    record
}

/// The record at a place; past the end, eight zeros.
pub fn at(records: &[Words], place: usize) -> Words {
    records.get(place).copied().unwrap_or_default()
}

/// Puts a record in the place of another.
pub fn replace(records: &mut [Words], place: usize, record: Words) {
    if let Some(old) = records.get_mut(place) {
        *old = record;
    }
}

/// A record with a word changed.
pub fn with(record: Words, word: usize, value: u16) -> Words {
    let mut changed = record;
    if let Some(old) = changed.get_mut(word) {
        *old = value;
    }
    changed
}

/// Changes a word of the record at a place.
pub fn set(records: &mut [Words], place: usize, word: usize, value: u16) {
    replace(records, place, with(at(records, place), word, value));
}

/// A term as a literal has it: a term record, or a function applied to one.
#[derive(Clone, Copy, Debug, PartialEq, Eq)]
pub enum Term {
    /// The term of a record.
    Record(u16),
    /// A function's term, which may have no record.
    Applied {
        /// The record of the vocabulary that has the function.
        function: u16,
        /// The record of the term that it is applied to.
        inner: u16,
    },
}

/// A script, with the matrix of its vocabulary and query.
pub struct Script {
    /// The matrix.
    pub matrix: Matrix,
    /// The records of the script.
    pub records: Vec<Words>,
}

/// The records that bytes hold, in order; bytes left over at the end are dropped.
pub fn decode(bytes: &[u8]) -> Vec<Words> {
    let (whole, _) = bytes.as_chunks::<RECORD_BYTES>();
    whole.iter().map(words).collect()
}

/// The words that the bytes of a record hold.
fn words(record: &[u8; RECORD_BYTES]) -> Words {
    let (pairs, _) = record.as_chunks();
    let mut numbers = pairs.iter().map(|pair| u16::from_le_bytes(*pair));
    std::array::from_fn(|_| numbers.next().unwrap_or(0))
}

/// The bytes of records, in order.
pub fn encode(records: &[Words]) -> Vec<u8> {
    let words = records.iter().flatten();
    words.flat_map(|word| word.to_le_bytes()).collect()
}

/// The steps from the header's w3 along each step's next, by place.
pub fn chain(records: &[Words]) -> Vec<usize> {
    let mut places = Vec::new();
    let mut next = at(records, 0)[FIRST];
    while next != 0 {
        let place = usize::from(next);
        places.push(place);
        next = at(records, place)[NEXT];
    }
    places
}

impl Script {
    /// The record at a place.
    pub fn record(&self, place: usize) -> Words {
        at(&self.records, place)
    }

    /// A word of a record.
    pub fn word(&self, place: usize, word: usize) -> u16 {
        let record = self.records.get(place);
        record.and_then(|words| words.get(word)).copied().unwrap_or(0)
    }

    /// The term records, by number.
    pub fn term_records(&self) -> impl Iterator<Item = u16> + '_ {
        let numbered = (0..).zip(&self.records).skip(1);
        let terms = numbered.filter(|(_, record)| [CONSTANT, TERM].contains(&record[KIND]));
        terms.map(|(number, _)| number)
    }

    /// The function of a term and the record that it is applied to; zeros for the constant.
    pub fn outer(&self, term: Term) -> [u16; 2] {
        match term {
            Term::Record(record) => [FUNCTION, INNER].map(|word| self.word(record.into(), word)),
            Term::Applied { function, inner } => [function, inner],
        }
    }

    /// Whether two terms have the same function, applied to the same record.
    pub fn same_outer(&self, s: Term, t: Term) -> bool {
        self.outer(s) == self.outer(t)
    }

    /// The functions of a term, from the outermost to the constant.
    pub fn written_out(&self, term: Term) -> Vec<u16> {
        let (mut functions, mut record) = match term {
            Term::Record(record) => (Vec::new(), record),
            Term::Applied { function, inner } => (vec![function], inner),
        };
        while self.word(usize::from(record), KIND) == TERM {
            functions.push(self.word(usize::from(record), FUNCTION));
            record = self.word(usize::from(record), INNER);
        }
        functions
    }

    /// The records of a term, by number.
    pub fn records_of(&self, term: Term) -> impl Iterator<Item = u16> + '_ {
        let written = self.written_out(term);
        let records = self.term_records();
        records.filter(move |number| self.written_out(Term::Record(*number)) == written)
    }
}
