//! Vocabularies as records, for display: which are accepted is the library's to say.

#[cfg(test)]
mod tests;

use judge::Edition;

/// What a record says whose kind is one of docs/FORMATS.md, section 2. Numbers are those of records, but for labels and
/// roles.
#[derive(Clone, Copy, Debug, PartialEq, Eq)]
pub enum Saying {
    /// Kind 1: all elements.
    Top,
    /// Kind 2: no element.
    Bottom,
    /// Kind 3: a name, by its label.
    Name(u16),
    /// Kind 4: complement.
    Not(u16),
    /// Kind 5: intersection.
    And(u16, u16),
    /// Kind 6: union.
    Or(u16, u16),
    /// Kind 7: some, of a role, to a term.
    Some(u16, u16),
    /// Kind 8: all, of a role, to a term.
    All(u16, u16),
    /// Kind 9: the first term lies within the second.
    Within(u16, u16),
}

/// The kind of the header.
pub const HEADER_KIND: u8 = 16;
/// The kind of statements.
pub const STATEMENT_KIND: u8 = 9;

/// A record's fields.
#[derive(Clone, Copy, Debug, Default, PartialEq, Eq)]
pub struct Record {
    /// The kind.
    pub kind: u8,
    /// The second byte.
    pub second: u8,
    /// A.
    pub a: u16,
    /// B.
    pub b: u16,
    /// Next.
    pub next: u16,
}

impl Record {
    /// The fields of eight bytes; bytes that are missing count as 0.
    pub fn read(bytes: &[u8]) -> Record {
        let at = |i: usize| bytes.get(i).copied().unwrap_or(0);
        let word = |i: usize| u16::from_le_bytes([at(i), at(i + 1)]);
        Record {
            kind: at(0),
            second: at(1),
            a: word(2),
            b: word(4),
            next: word(6),
        }
    }

    /// The header of an edition with no statement on the chain, of a vocabulary without atoms.
    pub fn header(edition: Edition, roles: u16) -> Record {
        Record {
            kind: HEADER_KIND,
            second: edition.number(),
            b: roles,
            ..Record::default()
        }
    }

    /// The eight bytes of the fields.
    pub fn bytes(self) -> [u8; 8] {
        let ([a0, a1], [b0, b1], [n0, n1]) = (self.a.to_le_bytes(), self.b.to_le_bytes(), self.next.to_le_bytes());
        [self.kind, self.second, a0, a1, b0, b1, n0, n1]
    }

    /// What it says; nothing where its kind is unknown, or a field is used that the kind does not use.
    pub fn saying(self) -> Option<Saying> {
        let saying = match self.kind {
            1 => Saying::Top,
            2 => Saying::Bottom,
            3 => Saying::Name(self.a),
            4 => Saying::Not(self.a),
            5 => Saying::And(self.a, self.b),
            6 => Saying::Or(self.a, self.b),
            7 => Saying::Some(self.a, self.b),
            8 => Saying::All(self.a, self.b),
            STATEMENT_KIND => Saying::Within(self.a, self.b),
            _ => return None,
        };
        (saying.record(self.next) == self).then_some(saying)
    }

    /// Whether its kind is a term's.
    pub fn is_term(self) -> bool {
        (1..=8).contains(&self.kind)
    }

    /// Whether it is an atom: a name or a restriction.
    pub fn is_atom(self) -> bool {
        matches!(self.kind, 3 | 7 | 8)
    }
}

impl Saying {
    /// The numbers of the records that it is made of.
    pub fn operands(self) -> Vec<u16> {
        match self {
            Saying::Top | Saying::Bottom | Saying::Name(_) => Vec::new(),
            Saying::Not(a) | Saying::Some(_, a) | Saying::All(_, a) => vec![a],
            Saying::And(a, b) | Saying::Or(a, b) | Saying::Within(a, b) => vec![a, b],
        }
    }

    /// The record that says it. `next` is a statement's.
    pub fn record(self, next: u16) -> Record {
        let (kind, a, b, next) = match self {
            Saying::Top => (1, 0, 0, 0),
            Saying::Bottom => (2, 0, 0, 0),
            Saying::Name(label) => (3, label, 0, 0),
            Saying::Not(a) => (4, a, 0, 0),
            Saying::And(a, b) => (5, a, b, 0),
            Saying::Or(a, b) => (6, a, b, 0),
            Saying::Some(role, b) => (7, role, b, 0),
            Saying::All(role, b) => (8, role, b, 0),
            Saying::Within(a, b) => (STATEMENT_KIND, a, b, next),
        };
        Record {
            kind,
            second: 0,
            a,
            b,
            next,
        }
    }
}

/// The records of a file, header first.
#[derive(Clone, Debug)]
pub struct Vocabulary {
    /// The records.
    pub records: Vec<Record>,
}

impl Vocabulary {
    /// The records of whole eight bytes.
    pub fn read(bytes: &[u8]) -> Vocabulary {
        Vocabulary {
            records: bytes.chunks_exact(judge::RECORD_BYTES).map(Record::read).collect(),
        }
    }

    /// The bytes of the records.
    pub fn bytes(&self) -> Vec<u8> {
        self.records.iter().flat_map(|record| record.bytes()).collect()
    }

    /// A record; where there is none, one of no kind.
    pub fn get(&self, number: usize) -> Record {
        self.records.get(number).copied().unwrap_or_default()
    }

    /// The records after the header, with their numbers.
    pub fn numbered(&self) -> impl Iterator<Item = (usize, Record)> + '_ {
        self.records.iter().copied().enumerate().skip(1)
    }

    /// What the records after the header say, with their numbers; those that say nothing are left out.
    pub fn sayings(&self) -> impl Iterator<Item = (u16, Saying)> + '_ {
        self.numbered()
            .filter_map(|(number, record)| Some((u16::try_from(number).ok()?, record.saying()?)))
    }

    /// The numbers of the atoms, in record order.
    pub fn atoms(&self) -> Vec<u16> {
        self.numbers_of(Record::is_atom)
    }

    /// The numbers of the terms, in record order.
    pub fn terms(&self) -> Vec<u16> {
        self.numbers_of(Record::is_term)
    }

    /// The numbers of the records of a sort, in record order.
    fn numbers_of(&self, is_wanted: fn(Record) -> bool) -> Vec<u16> {
        let wanted = self.numbered().filter(|(_, record)| is_wanted(*record));
        wanted.filter_map(|(number, _)| u16::try_from(number).ok()).collect()
    }

    /// A and B of each statement on the chain.
    pub fn statements(&self) -> Vec<(u16, u16)> {
        let chained = self.records.iter().zip(self.chained()).filter(|(_, on)| *on);
        chained.map(|(record, _)| (record.a, record.b)).collect()
    }

    /// Which records are statements on the chain. A link that leads back or to no statement, or to one that has no form,
    /// ends it.
    pub fn chained(&self) -> Vec<bool> {
        let is_statement = |number| matches!(self.get(number).saying(), Some(Saying::Within(..)));
        crate::chain::followed(self.records.len(), self.get(0).a, is_statement, |number| {
            self.get(number).next
        })
    }

    /// A copy with these statements on the chain, in record order, and no others, whose link is 0.
    pub fn with_chain(&self, statements: &[u16]) -> Vocabulary {
        let mut copy = self.clone();
        let mut link = 0;
        for (number, record) in copy.records.iter_mut().enumerate().rev() {
            if number == 0 {
                record.a = link;
            } else if record.kind == STATEMENT_KIND {
                let on = statements.iter().copied().find(|on| usize::from(*on) == number);
                record.next = on.map_or(0, |_| link);
                link = on.unwrap_or(link);
            }
        }
        copy
    }

    /// Which records hold at a type: terms by the truth of the atoms, statements by "A false or B true".
    pub fn truths(&self, element: u16) -> Vec<bool> {
        let mut truths = vec![false; self.records.len()];
        let mut atom = 0;
        for (number, record) in self.numbered() {
            let at = |operand: u16| truths.get(usize::from(operand)).copied().unwrap_or(false);
            let truth = match record.saying() {
                None | Some(Saying::Bottom) => false,
                Some(Saying::Top) => true,
                Some(Saying::Not(a)) => !at(a),
                Some(Saying::And(a, b)) => at(a) && at(b),
                Some(Saying::Or(a, b)) => at(a) || at(b),
                Some(Saying::Within(a, b)) => !at(a) || at(b),
                Some(Saying::Name(_) | Saying::Some(..) | Saying::All(..)) => {
                    atom += 1;
                    element.checked_shr(atom - 1).unwrap_or(0) & 1 == 1
                }
            };
            if let Some(place) = truths.get_mut(number) {
                *place = truth;
            }
        }
        truths
    }
}
