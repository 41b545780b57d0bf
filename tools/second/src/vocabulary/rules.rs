//! The points of the vocabulary check and the record call in which a wrong one (`errors.rs`) may differ. Each default is
//! the paper's.

use crate::vocabulary::call::{check_chains, check_length, check_records, refuse_if, Refusal, MOST_ROLES};
use crate::vocabulary::records::{at, records, Record, B, EDITION_1, EDITION_2, NEXT, RECORD_BYTES};

/// What is asked of a vocabulary after its length.
#[derive(Clone, Copy, PartialEq, Eq)]
pub enum Check {
    /// Row 2.
    Header,
    /// Rows 3 to 7.
    Records,
    /// Row 8.
    Chains,
    /// Row 28.
    Atoms,
}

/// A reader.
pub trait Rules {
    /// The vocabulary check.
    fn check(&self, bytes: &[u8]) -> Result<usize, Refusal> {
        check_length(bytes)?;
        let records = records(bytes);
        for check in self.order() {
            match check {
                Check::Header => refuse_if(self.is_wrong_header(&records), 2, 0)?,
                Check::Records => check_records(&records)?,
                Check::Chains => check_chains(&records)?,
                Check::Atoms => self.check_count(&records)?,
            }
        }
        Ok(records.len())
    }

    /// What is asked after the length, in order.
    fn order(&self) -> [Check; 4] {
        [Check::Header, Check::Records, Check::Chains, Check::Atoms]
    }

    /// Row 2: the header, apart from its A.
    fn is_wrong_header(&self, records: &[Record]) -> bool {
        let header = at(records, 0);
        header.kind != 16 || header.fields[B] > MOST_ROLES || !self.admits(header, records)
    }

    /// Whether the header's next may stand with its second byte. Edition 2 admits any.
    fn admits(&self, header: Record, _records: &[Record]) -> bool {
        match header.second {
            EDITION_1 => header.fields[NEXT] == 0,
            EDITION_2 => true,
            _ => false,
        }
    }

    /// Row 28.
    fn check_count(&self, records: &[Record]) -> Result<(), Refusal> {
        let header = at(records, 0);
        let wrong = self.holds_count(header) && !self.is_count(header.fields[NEXT], self.count(records));
        refuse_if(wrong, self.number(), self.place(records))
    }

    /// Whether a header holds k.
    fn holds_count(&self, header: Record) -> bool {
        header.second == EDITION_2
    }

    /// The true k.
    fn count(&self, records: &[Record]) -> usize {
        records.iter().skip(1).filter(|record| self.is_atom(record)).count()
    }

    /// Whether a record is counted.
    fn is_atom(&self, record: &Record) -> bool {
        record.is_atom()
    }

    /// Whether a number that a header holds is k.
    fn is_count(&self, held: u16, count: usize) -> bool {
        usize::from(held) == count
    }

    /// The number with which a wrong k is refused.
    fn number(&self) -> u8 {
        28
    }

    /// The place of 28: the true k.
    fn place(&self, records: &[Record]) -> usize {
        self.count(records)
    }

    /// The record call.
    fn find(&self, bytes: &[u8], number: u32) -> Result<usize, Refusal> {
        check_length(bytes)?;
        let number = number as usize;
        let count = bytes.len() / RECORD_BYTES;
        refuse_if(number >= count, 9, number)?;
        Ok(RECORD_BYTES * number)
    }
}

/// The paper's reader.
pub struct Paper;

impl Rules for Paper {}
