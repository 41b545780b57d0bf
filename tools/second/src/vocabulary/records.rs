//! The records of a vocabulary: their bytes, and what each kind uses its fields for.

/// The bytes of a record.
pub const RECORD_BYTES: usize = 8;

/// A record: kind, second byte, A, B and next.
#[derive(Clone, Copy, Debug, PartialEq, Eq)]
pub struct Record {
    /// The kind.
    pub kind: u8,
    /// The second byte.
    pub second: u8,
    /// A, B and next, in this order.
    pub fields: [u16; 3],
}

/// What is read where no record stands: kind 0, which there is not.
const NONE: Record = Record {
    kind: 0,
    second: 0,
    fields: [0; 3],
};

/// The place of A among a record's fields.
pub const A: usize = 0;
/// The place of B among a record's fields.
pub const B: usize = 1;
/// The place of next among a record's fields.
pub const NEXT: usize = 2;

/// The second byte of a header whose next is 0.
pub const EDITION_1: u8 = 1;
/// The second byte of a header whose next is k, the number of atoms.
pub const EDITION_2: u8 = 2;

/// What a kind of record uses a field for.
#[derive(Clone, Copy, PartialEq, Eq)]
pub enum Use {
    /// Not mentioned: has to be zero.
    Unused,
    /// The number of a term.
    Term,
    /// A role.
    Role,
    /// A name's label.
    Label,
    /// The next statement of a chain.
    Next,
}

impl Record {
    /// A record of its kind and fields, with second byte 0.
    pub fn new(kind: u8, a: u16, b: u16, next: u16) -> Record {
        Record {
            kind,
            second: 0,
            fields: [a, b, next],
        }
    }

    /// The header, of edition 1, of a vocabulary with `roles` roles and no statement on its chain.
    pub fn header(roles: u16) -> Record {
        Record {
            kind: 16,
            second: EDITION_1,
            fields: [0, roles, 0],
        }
    }

    /// The same of edition 2, with no atom.
    pub fn header_2(roles: u16) -> Record {
        Record {
            second: EDITION_2,
            ..Record::header(roles)
        }
    }

    /// The record that eight bytes hold.
    fn decode(bytes: &[u8; RECORD_BYTES]) -> Record {
        let [kind, second, a0, a1, b0, b1, n0, n1] = *bytes;
        let number = |low, high| u16::from_le_bytes([low, high]);
        Record {
            kind,
            second,
            fields: [number(a0, a1), number(b0, b1), number(n0, n1)],
        }
    }

    /// The eight bytes of the record.
    fn encode(self) -> [u8; RECORD_BYTES] {
        let [[a0, a1], [b0, b1], [n0, n1]] = self.fields.map(u16::to_le_bytes);
        [self.kind, self.second, a0, a1, b0, b1, n0, n1]
    }

    /// The fields that the record's kind uses so.
    pub fn used_for(&self, purpose: Use) -> Vec<u16> {
        self.fields_for(purpose).collect()
    }

    /// The same, one after the other.
    pub fn fields_for(&self, purpose: Use) -> impl Iterator<Item = u16> {
        let uses = uses(self.kind).into_iter().flatten();
        uses.zip(self.fields)
            .filter(move |(used, _)| *used == purpose)
            .map(|(_, field)| field)
    }

    /// A and B, as the numbers of records.
    pub fn operands(&self) -> [usize; 2] {
        let [a, b, _] = self.fields.map(usize::from);
        [a, b]
    }

    /// Whether the record is a term.
    pub fn is_term(&self) -> bool {
        (1..=8).contains(&self.kind)
    }

    /// Whether the record is a statement.
    pub fn is_statement(&self) -> bool {
        self.kind == 9
    }

    /// Whether the record is a name.
    pub fn is_name(&self) -> bool {
        self.kind == 3
    }

    /// Whether the record is an atom: a name, or a restriction of either kind.
    pub fn is_atom(&self) -> bool {
        matches!(self.kind, 3 | 7 | 8)
    }
}

/// What records of a kind use A, B and next for; nothing for a kind that there is not.
pub fn uses(kind: u8) -> Option<[Use; 3]> {
    use Use::{Label, Next, Role, Term, Unused};
    match kind {
        1 | 2 => Some([Unused, Unused, Unused]),
        3 => Some([Label, Unused, Unused]),
        4 => Some([Term, Unused, Unused]),
        5 | 6 => Some([Term, Term, Unused]),
        7 | 8 => Some([Role, Term, Unused]),
        9 => Some([Term, Term, Next]),
        _ => None,
    }
}

/// The record of a number; past the end, one of no kind whose fields are zero.
pub fn at(records: &[Record], number: usize) -> Record {
    records.get(number).copied().unwrap_or(NONE)
}

/// The numbers of the terms among records.
pub fn terms(records: &[Record]) -> Vec<usize> {
    let all = records.iter().enumerate().filter(|(_, record)| record.is_term());
    all.map(|(number, _)| number).collect()
}

/// The whole records that bytes hold, in order; bytes left over at the end are dropped.
pub fn records(bytes: &[u8]) -> Vec<Record> {
    let (whole, _) = bytes.as_chunks::<RECORD_BYTES>();
    whole.iter().map(Record::decode).collect()
}

/// The bytes of records, in order.
pub fn bytes(records: &[Record]) -> Vec<u8> {
    records.iter().flat_map(|record| record.encode()).collect()
}
