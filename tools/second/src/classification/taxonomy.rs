//! The names of a vocabulary, which of them lie within which, and the table of nearest broader names: Slip 1 of the
//! requests, sentence by sentence.

use crate::comparison::{Set, Types};
use crate::vocabulary::records::Record;

/// The bytes that the table takes, and that have to be lent for it.
pub const TABLE_BYTES: usize = 144;

/// The first bytes of the second buffer.
pub type Table = [u8; TABLE_BYTES];

/// "2 if the two are equal in every finite interpretation satisfying the statements".
pub const EQUAL: u8 = 2;
/// "1 if the second is strictly broader with no name strictly between".
pub const NEAREST: u8 = 1;

/// The numbers of the names, in record order.
pub fn names(records: &[Record]) -> Vec<usize> {
    let all = records
        .iter()
        .enumerate()
        .skip(1)
        .filter(|(_, record)| record.is_name());
    all.map(|(number, _)| number).collect()
}

/// Which of some terms lie within which others.
pub struct Order {
    /// For each term, for each term, whether the first lies within the second.
    within: Vec<Vec<bool>>,
}

impl Order {
    /// The order of so many terms, by a test of the places of two.
    pub fn by(count: usize, within: impl Fn(usize, usize) -> bool) -> Order {
        let row = |i| (0..count).map(|j| within(i, j)).collect();
        Order {
            within: (0..count).map(row).collect(),
        }
    }

    /// The order of terms at a set of types: one lies within another if it is true at no type of the set at which the
    /// other is false. With the survivors that is so in every finite interpretation that satisfies the statements.
    pub fn at(types: &Types, terms: &[usize], set: &Set) -> Order {
        let term = |i: usize| terms.get(i).copied().unwrap_or(0);
        let holds = |i, j, t: &usize| !types.is_true(term(i), *t) || types.is_true(term(j), *t);
        Order::by(terms.len(), |i, j| set.iter().all(|t| holds(i, j, t)))
    }

    /// How many terms there are.
    pub fn count(&self) -> usize {
        self.within.len()
    }

    /// Whether term i lies within term j; false where there is no such term.
    pub fn within(&self, i: usize, j: usize) -> bool {
        self.within
            .get(i)
            .and_then(|row| row.get(j))
            .is_some_and(|within| *within)
    }

    /// Whether the terms are equal.
    pub fn equal(&self, i: usize, j: usize) -> bool {
        self.within(i, j) && self.within(j, i)
    }

    /// Whether term j is strictly broader than term i.
    pub fn broader(&self, i: usize, j: usize) -> bool {
        self.within(i, j) && !self.within(j, i)
    }

    /// Whether a term stands strictly between term i and term j.
    pub fn between(&self, i: usize, j: usize) -> bool {
        (0..self.count()).any(|m| self.broader(i, m) && self.broader(m, j))
    }

    /// The byte of terms i and j.
    pub fn entry(&self, i: usize, j: usize) -> u8 {
        match self.broader(i, j) {
            _ if self.equal(i, j) => EQUAL,
            true if !self.between(i, j) => NEAREST,
            _ => 0,
        }
    }

    /// "Rows go by the first name, one byte per name; the rest of the first 144 are zero".
    pub fn table(&self) -> Table {
        table(self.count(), self.count(), |i, j| self.entry(i, j))
    }
}

/// The table of so many names in rows of a length, by the byte of each two; what lies past its end is left out.
pub fn table(count: usize, row: usize, entry: impl Fn(usize, usize) -> u8) -> Table {
    let mut bytes = [0; TABLE_BYTES];
    for i in 0..count {
        for j in 0..count {
            if let Some(byte) = bytes.get_mut(i * row + j) {
                *byte = entry(i, j);
            }
        }
    }
    bytes
}
