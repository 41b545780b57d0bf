//! Vocabularies written out by hand: each call pushes a record and answers its number.

use crate::vocabulary::records::Record;
use crate::vocabulary::Draft;

/// A vocabulary in the making, and the statements that its chain is to have.
#[derive(Clone)]
pub struct Terms {
    /// The records so far.
    draft: Draft,
    /// The statements.
    chain: Vec<u16>,
}

impl Terms {
    /// A header alone.
    pub fn new(roles: u16) -> Terms {
        Terms {
            draft: Draft::new(roles),
            chain: Vec::new(),
        }
    }

    /// How many records there are, header included.
    pub fn len(&self) -> usize {
        self.draft.records.len()
    }

    /// The records so far but the header.
    pub fn records(&self) -> &[Record] {
        self.draft.records.get(1..).unwrap_or(&[])
    }

    /// Pushes a record of a kind, and answers its number.
    pub fn push(&mut self, kind: u8, a: u16, b: u16) -> u16 {
        let number = self.draft.records.len() as u16;
        self.draft.records.push(Record::new(kind, a, b, 0));
        number
    }

    /// Top.
    pub fn top(&mut self) -> u16 {
        self.push(1, 0, 0)
    }

    /// Bottom.
    pub fn bottom(&mut self) -> u16 {
        self.push(2, 0, 0)
    }

    /// A name; its label is its number.
    pub fn name(&mut self) -> u16 {
        let label = self.draft.records.len() as u16;
        self.push(3, label, 0)
    }

    /// Names, as many as are taken.
    pub fn names<const COUNT: usize>(&mut self) -> [u16; COUNT] {
        std::array::from_fn(|_| self.name())
    }

    /// So many names.
    pub fn name_list(&mut self, count: usize) -> Vec<u16> {
        (0..count).map(|_| self.name()).collect()
    }

    /// The complement of a term.
    pub fn not(&mut self, a: u16) -> u16 {
        self.push(4, a, 0)
    }

    /// What lies in both of two terms.
    pub fn and(&mut self, a: u16, b: u16) -> u16 {
        self.push(5, a, b)
    }

    /// What lies in one of two terms, or both.
    pub fn or(&mut self, a: u16, b: u16) -> u16 {
        self.push(6, a, b)
    }

    /// Some role to a term.
    pub fn some(&mut self, role: u16, b: u16) -> u16 {
        self.push(7, role, b)
    }

    /// All role to a term.
    pub fn all(&mut self, role: u16, b: u16) -> u16 {
        self.push(8, role, b)
    }

    /// A statement on the chain.
    pub fn within(&mut self, a: u16, b: u16) -> u16 {
        let number = self.aside(a, b);
        self.chain.push(number);
        number
    }

    /// Two statements on the chain: each within the other.
    pub fn equal(&mut self, a: u16, b: u16) {
        self.within(a, b);
        self.within(b, a);
    }

    /// A statement off the chain.
    pub fn aside(&mut self, a: u16, b: u16) -> u16 {
        self.push(9, a, b)
    }

    /// Gives a statement a next.
    pub fn link(&mut self, holder: u16, next: u16) {
        self.draft.link(usize::from(holder), next);
    }

    /// The bytes of the vocabulary, chained.
    pub fn bytes(mut self) -> Vec<u8> {
        self.draft.chain(&self.chain);
        self.draft.bytes()
    }
}
