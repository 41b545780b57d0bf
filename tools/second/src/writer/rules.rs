//! The points of the writer in which a wrong one (`errors/`) may differ. Each default is the paper's.

use crate::vocabulary::records::{at, bytes, records, Record, EDITION_2, NEXT, RECORD_BYTES};
use crate::vocabulary::{applies, chain, check_vocabulary, refuse_if, Refusal, MOST_RECORDS, MOST_ROLES};
use crate::writer::file::Call;

/// The kind of a statement.
pub const STATEMENT: u8 = 9;

/// What a call answers: the new length, or a refusal.
pub type Answer = Result<usize, Refusal>;

/// What is asked before a record is added.
#[derive(Clone, Copy, PartialEq, Eq)]
pub enum Check {
    /// Rows 1 to 8 and 28 of the bytes in use.
    InUse,
    /// Row 27.
    Room,
    /// The new record's own rows.
    Own,
}

/// An addition to a buffer in which a length is in use that is not past it.
pub struct Adding {
    /// The records in use.
    pub records: Vec<Record>,
    /// The length in use.
    pub used: usize,
    /// How many bytes of the buffer are free.
    pub free: usize,
    /// The new record.
    pub new: Record,
    /// Whether it was asked for as a term.
    pub as_term: bool,
}

impl Adding {
    /// How many records are in use: the number that the new one gets.
    pub fn count(&self) -> usize {
        self.records.len()
    }

    /// The records in use, and the new one.
    pub fn with_new(&self) -> Vec<Record> {
        let mut all = self.records.clone();
        all.push(self.new);
        all
    }

    /// The number of the new record as the fields of records have it.
    pub fn number(&self) -> u16 {
        self.count() as u16
    }

    /// Whether the header is of edition 2, which holds k.
    pub fn holds_count(&self) -> bool {
        at(&self.records, 0).second == EDITION_2
    }

    /// The k that the header holds.
    pub fn held(&self) -> u16 {
        at(&self.records, 0).fields[NEXT]
    }
}

/// Puts bytes into a buffer from a place on, as far as it has room for them.
pub fn put(buffer: &mut [u8], at: usize, bytes: &[u8]) {
    let places = buffer.iter_mut().skip(at).zip(bytes);
    places.for_each(|(place, byte)| *place = *byte);
}

/// Where the link of a holder lies: the header's A, or a statement's next.
pub fn link_place(holder: usize) -> usize {
    RECORD_BYTES * holder + if holder == 0 { 2 } else { 6 }
}

/// Where the header's k lies.
pub const COUNT_PLACE: usize = 6;

/// A writer.
pub trait Rules {
    /// Makes an empty vocabulary.
    fn make(&self, buffer: &mut [u8], roles: u32) -> Answer {
        for row in self.making() {
            let applies = match row {
                27 => self.too_short(buffer.len()),
                _ => self.too_many(roles),
            };
            refuse_if(applies, row, 0)?;
        }
        put(buffer, 0, &self.header(roles));
        Ok(self.made(buffer))
    }

    /// The rows that are tried when a vocabulary is made, in their order.
    fn making(&self) -> [u8; 2] {
        [27, 2]
    }

    /// Whether a buffer is too short for a header.
    fn too_short(&self, length: usize) -> bool {
        length < RECORD_BYTES
    }

    /// Whether there are too many roles.
    fn too_many(&self, roles: u32) -> bool {
        roles > u32::from(MOST_ROLES)
    }

    /// The header's bytes: edition 2, with no atom.
    fn header(&self, roles: u32) -> Vec<u8> {
        bytes(&[Record::header_2(roles as u16)])
    }

    /// What is left to be done once the header stands, and the new length.
    fn made(&self, _buffer: &mut [u8]) -> usize {
        RECORD_BYTES
    }

    /// Adds a record.
    fn add(&self, buffer: &mut [u8], used: u64, call: Call) -> Answer {
        let used = self.in_use(buffer.len(), used)?;
        let adding = adding(buffer, used, call);
        for check in self.order() {
            match check {
                Check::InUse => self.read(buffer, used)?,
                Check::Room => self.room(&adding)?,
                Check::Own => self.own(&adding)?,
            }
        }
        self.write(buffer, &adding);
        Ok(self.length(&adding))
    }

    /// The length in use, where it is not past the buffer.
    fn in_use(&self, length: usize, used: u64) -> Answer {
        let within = usize::try_from(used).ok().filter(|used| *used <= length);
        within.ok_or(Refusal { number: 1, place: 0 })
    }

    /// What is asked before a record is added, in order.
    fn order(&self) -> [Check; 3] {
        [Check::InUse, Check::Room, Check::Own]
    }

    /// Rows 1 to 8 and 28 of the bytes in use.
    fn read(&self, buffer: &[u8], used: usize) -> Result<(), Refusal> {
        check_vocabulary(buffer.get(..used).unwrap_or_default()).map(|_| ())
    }

    /// Row 27.
    fn room(&self, adding: &Adding) -> Result<(), Refusal> {
        let lacks = self.is_full(adding.count()) || self.lacks_bytes(adding.free);
        refuse_if(lacks, 27, self.place_of_27(adding))
    }

    /// Whether there are as many records as there may be.
    fn is_full(&self, count: usize) -> bool {
        count >= MOST_RECORDS
    }

    /// Whether the free bytes are too few.
    fn lacks_bytes(&self, free: usize) -> bool {
        free < RECORD_BYTES
    }

    /// The place of row 27.
    fn place_of_27(&self, adding: &Adding) -> usize {
        adding.count()
    }

    /// The new record's own rows.
    fn own(&self, adding: &Adding) -> Result<(), Refusal> {
        for row in self.rows() {
            refuse_if(self.applies(row, adding), row, self.place(adding))?;
        }
        Ok(())
    }

    /// The rows that are tried at the new record, in their order.
    fn rows(&self) -> [u8; 5] {
        [3, 4, 5, 6, 7]
    }

    /// Whether one of them applies.
    fn applies(&self, row: u8, adding: &Adding) -> bool {
        match row {
            3 => adding.as_term && !self.is_term_kind(adding.new.kind),
            _ => applies(row, &adding.with_new(), adding.count()),
        }
    }

    /// Whether a kind may be added as a term.
    fn is_term_kind(&self, kind: u8) -> bool {
        (1..=8).contains(&kind)
    }

    /// The place of the new record's own rows.
    fn place(&self, adding: &Adding) -> usize {
        adding.count()
    }

    /// Writes the new record, the link that reaches it, and the header's k.
    fn write(&self, buffer: &mut [u8], adding: &Adding) {
        put(buffer, adding.used, &self.record(adding));
        if self.is_linked(adding) {
            self.link(buffer, adding);
        }
        if self.is_counted(adding) {
            self.count(buffer, adding);
        }
    }

    /// The new record's bytes.
    fn record(&self, adding: &Adding) -> Vec<u8> {
        bytes(&[adding.new])
    }

    /// Whether a link is to reach the new record.
    fn is_linked(&self, adding: &Adding) -> bool {
        !adding.as_term
    }

    /// Writes the link that reaches the new record.
    fn link(&self, buffer: &mut [u8], adding: &Adding) {
        let link = adding.number().to_le_bytes();
        put(buffer, link_place(self.holder(&adding.records)), &link);
    }

    /// The record from which the new statement is linked: the last on the chain, or the header.
    fn holder(&self, records: &[Record]) -> usize {
        chain(records).last().map_or(0, |last| usize::from(*last))
    }

    /// Whether the header's k changes: that of edition 2 does, by an atom.
    fn is_counted(&self, adding: &Adding) -> bool {
        adding.holds_count() && adding.new.is_atom()
    }

    /// Writes the header's k.
    fn count(&self, buffer: &mut [u8], adding: &Adding) {
        put(buffer, COUNT_PLACE, &self.raised(adding).to_le_bytes());
    }

    /// The header's k with the new atom.
    fn raised(&self, adding: &Adding) -> u16 {
        // A wrong writer may find any number there.
        adding.held().wrapping_add(1)
    }

    /// The new length.
    fn length(&self, adding: &Adding) -> usize {
        adding.used + RECORD_BYTES
    }
}

/// What is added to a buffer, with a length in use that is not past it.
pub fn adding(buffer: &[u8], used: usize, call: Call) -> Adding {
    let (kind, a, b, as_term) = match call {
        Call::Term { kind, a, b } => (kind, a, b, true),
        Call::Statement { a, b } => (STATEMENT, a, b, false),
        Call::Make { .. } => (0, 0, 0, true),
    };
    Adding {
        records: records(buffer.get(..used).unwrap_or_default()),
        used,
        free: buffer.len().saturating_sub(used),
        new: Record::new(kind, a, b, 0),
        as_term,
    }
}

/// The paper's writer.
pub struct Paper;

impl Rules for Paper {}
