//! The sorts of writer cases.

use crate::vocabulary::records::{at, records, Record, EDITION_1, EDITION_2};
use crate::vocabulary::{applies, chain, check_vocabulary};
use crate::writer::call::Outcome;
use crate::writer::file::{Call, Case};
use crate::writer::plan::{Meant, Planned};
use crate::writer::rules::STATEMENT;

/// A call without its numbers.
#[derive(Clone, Copy, PartialEq, Eq)]
pub enum Sort {
    /// Makes an empty vocabulary.
    Make,
    /// Adds a term.
    Term,
    /// Adds a statement.
    Statement,
}

/// What is seen of a case.
pub struct Seen<'a> {
    /// The case.
    pub case: &'a Case,
    /// What it is made for.
    meant: &'a Meant,
    /// Which call it makes.
    pub sort: Sort,
    /// The refusal's number, 0 where there is none.
    pub refusal: u8,
    /// How many bytes are lent.
    lent: u64,
    /// Whether the bytes in use are accepted.
    pub accepted: bool,
    /// The records in use, where they are accepted.
    records: Vec<Record>,
    /// The statements on the chain.
    chain: Vec<u16>,
}

impl<'a> Seen<'a> {
    /// What is seen of a case and its outcome.
    pub fn of(planned: &'a Planned, outcome: &Outcome) -> Seen<'a> {
        let case = &planned.case;
        let buffer = case.buffer();
        let in_use = usize::try_from(case.used).ok().and_then(|used| buffer.get(..used));
        let in_use = in_use.filter(|bytes| check_vocabulary(bytes).is_ok());
        let records = records(in_use.unwrap_or_default());
        Seen {
            case,
            meant: &planned.meant,
            sort: match case.call {
                Call::Make { .. } => Sort::Make,
                Call::Term { .. } => Sort::Term,
                Call::Statement { .. } => Sort::Statement,
            },
            refusal: outcome.answer.err().map_or(0, |refusal| refusal.number),
            lent: buffer.len() as u64,
            accepted: in_use.is_some(),
            chain: if records.is_empty() {
                Vec::new()
            } else {
                chain(&records)
            },
            records,
        }
    }

    /// How many bytes are free.
    fn free(&self) -> u64 {
        self.lent.saturating_sub(self.case.used)
    }

    /// How many records are in use.
    fn count(&self) -> usize {
        self.records.len()
    }

    /// Whether something was added.
    fn added(&self) -> bool {
        self.refusal == 0 && self.sort != Sort::Make
    }

    /// Whether there is no room for an addition.
    fn lacks_room(&self) -> bool {
        self.refusal == 27 && self.sort != Sort::Make
    }

    /// Whether a statement was added.
    fn stated(&self) -> bool {
        self.refusal == 0 && self.sort == Sort::Statement
    }

    /// The statements in use, on the chain or not.
    fn statements(&self) -> impl DoubleEndedIterator<Item = (u16, &Record)> + '_ {
        let all = self.records.iter().enumerate();
        all.filter(|(_, record)| record.is_statement())
            .map(|(number, record)| (number as u16, record))
    }

    /// The last statement of the file, on the chain or not.
    fn last(&self) -> Option<u16> {
        self.statements().next_back().map(|(number, _)| number)
    }

    /// Whether a statement off the chain has a next on it.
    fn is_joined(&self) -> bool {
        let mut off = self.statements().filter(|(number, _)| !self.chain.contains(number));
        off.any(|(_, statement)| self.chain.contains(&statement.fields[2]))
    }

    /// Whether one of rows 3 to 7 applies to the new record.
    fn is_wrong(&self) -> bool {
        let (kind, a, b) = match self.case.call {
            Call::Term { kind, a, b } => (kind, a, b),
            Call::Statement { a, b } => (STATEMENT, a, b),
            Call::Make { .. } => return false,
        };
        let mut all = self.records.clone();
        all.push(Record::new(kind, a, b, 0));
        (3..=7).any(|row| applies(row, &all, self.count()))
    }

    /// Whether row 1 refuses a length that is, or is not, past the buffer.
    fn length_refused(&self, past: bool) -> bool {
        self.refusal == 1 && (self.case.used > self.lent) == past
    }

    /// Whether the bytes in use are accepted, and of this edition.
    fn is_of(&self, edition: u8) -> bool {
        self.records.first().is_some_and(|header| header.second == edition)
    }

    /// Whether an atom was added to edition 2, where k was in this range.
    fn raised(&self, held: std::ops::Range<u16>) -> bool {
        self.added() && self.is_of(EDITION_2) && self.is_atom() && held.contains(&at(&self.records, 0).fields[2])
    }

    /// Whether the new record is to be an atom.
    fn is_atom(&self) -> bool {
        matches!(self.case.call, Call::Term { kind: 3 | 7 | 8, .. })
    }

    /// Whether a vocabulary was made over an accepted one of this edition.
    fn made_over(&self, edition: u8) -> bool {
        let stood = self.case.content.get(1) == Some(&edition) && check_vocabulary(&self.case.content).is_ok();
        self.sort == Sort::Make && self.refusal == 0 && stood
    }

    /// How many additions are to be read from the buffer.
    fn shown(&self) -> Option<usize> {
        match self.meant {
            Meant::Shows(shown) => Some(shown.additions.len()),
            Meant::Line(_) => None,
        }
    }

    /// Whether records stand behind the bytes in use.
    fn has_tail(&self) -> bool {
        (self.case.content.len() as u64) > self.case.used
    }
}

/// A sort of cases: its name, how many there have to be, and whether a case is one.
type Named = (&'static str, usize, fn(&Seen) -> bool);

/// The sorts of cases beside those by call and refusal.
pub const SORTS: &[Named] = &[
    ("made, 8 bytes lent", 5, |seen| {
        seen.sort == Sort::Make && seen.refusal == 0 && seen.lent == 8
    }),
    ("made, over 4,096 bytes lent", 5, |seen| {
        seen.sort == Sort::Make && seen.refusal == 0 && seen.lent > 4096
    }),
    ("made over an accepted vocabulary", 20, |seen| {
        seen.sort == Sort::Make && seen.refusal == 0 && check_vocabulary(&seen.case.content).is_ok()
    }),
    ("making refused 2, a role count of over 16 bits", 20, |seen| {
        seen.refusal == 2 && matches!(seen.case.call, Call::Make { roles } if roles > 65535)
    }),
    ("a length past the buffer by less than 8", 20, |seen| {
        seen.length_refused(true) && seen.case.used < seen.lent + 8
    }),
    ("a length past the buffer by 8 or more", 50, |seen| {
        seen.length_refused(true) && seen.case.used >= seen.lent + 8
    }),
    ("a length of over 32 bits", 50, |seen| {
        seen.refusal == 1 && seen.case.used >> 32 != 0
    }),
    ("a length under 8", 30, |seen| {
        seen.length_refused(false) && seen.case.used < 8
    }),
    ("a length that is no multiple of 8", 30, |seen| {
        seen.length_refused(false) && seen.case.used > 8 && !seen.case.used.is_multiple_of(8)
    }),
    ("a length over 4,096 that is not past the buffer", 8, |seen| {
        seen.length_refused(false) && seen.case.used > 4096
    }),
    ("512 records, 8 free bytes or more", 10, |seen| {
        seen.lacks_room() && seen.count() == 512 && seen.free() >= 8
    }),
    ("512 records, under 8 free bytes", 5, |seen| {
        seen.lacks_room() && seen.count() == 512 && seen.free() < 8
    }),
    ("no free byte", 20, |seen| seen.lacks_room() && seen.free() == 0),
    ("1 to 6 free bytes", 50, |seen| {
        seen.lacks_room() && (1..7).contains(&seen.free())
    }),
    ("7 free bytes", 20, |seen| seen.lacks_room() && seen.free() == 7),
    ("no room for a wrong record", 50, |seen| {
        seen.lacks_room() && seen.is_wrong()
    }),
    ("added, 8 free bytes", 100, |seen| seen.added() && seen.free() == 8),
    ("added, 9 free bytes", 30, |seen| seen.added() && seen.free() == 9),
    ("added, over 4,096 bytes lent", 100, |seen| {
        seen.added() && seen.lent > 4096
    }),
    ("added, the first record", 20, |seen| seen.added() && seen.count() == 1),
    ("added, record 256 or later", 30, |seen| {
        seen.added() && seen.count() >= 256
    }),
    ("added, the 512th record", 8, |seen| seen.added() && seen.count() == 511),
    ("added, records behind the bytes in use", 100, |seen| {
        seen.added() && seen.has_tail()
    }),
    ("added by a sequence", 200, |seen| seen.shown().is_some()),
    ("added by a sequence, 10 additions or more", 50, |seen| {
        seen.shown().is_some_and(|additions| additions >= 10)
    }),
    ("added by a sequence, 511 additions", 3, |seen| {
        seen.shown() == Some(511)
    }),
    ("made over a vocabulary of edition 1", 5, |seen| {
        seen.made_over(EDITION_1)
    }),
    ("made over a vocabulary of edition 2", 5, |seen| {
        seen.made_over(EDITION_2)
    }),
    ("an atom added to edition 1", 100, |seen| {
        seen.added() && seen.is_of(EDITION_1) && seen.is_atom()
    }),
    ("an atom added to edition 2, k under 255", 80, |seen| {
        seen.raised(0..255)
    }),
    ("an atom added to edition 2, k 255", 5, |seen| seen.raised(255..256)),
    ("an atom added to edition 2, k over 255", 10, |seen| {
        seen.raised(256..512)
    }),
    ("another term added to edition 2", 30, |seen| {
        seen.added() && seen.is_of(EDITION_2) && !seen.is_atom() && seen.sort == Sort::Term
    }),
    ("a statement added to edition 2", 30, |seen| {
        seen.stated() && seen.is_of(EDITION_2)
    }),
    ("an atom refused at the new record, over edition 2", 20, |seen| {
        (3..8).contains(&seen.refusal) && seen.is_of(EDITION_2) && seen.is_atom()
    }),
    ("no room for an atom, over edition 2", 8, |seen| {
        seen.lacks_room() && seen.is_of(EDITION_2) && seen.is_atom()
    }),
    ("added by a sequence over edition 2", 50, |seen| {
        seen.shown().is_some() && seen.is_of(EDITION_2)
    }),
    ("added by a sequence over edition 2, 511 additions", 3, |seen| {
        seen.shown() == Some(511) && seen.is_of(EDITION_2)
    }),
    ("the first statement", 10, |seen| seen.stated() && seen.last().is_none()),
    ("a statement, the chain empty, others off it", 30, |seen| {
        seen.stated() && seen.chain.is_empty() && seen.last().is_some()
    }),
    ("a statement after the last of the file", 100, |seen| {
        seen.stated() && !seen.chain.is_empty() && seen.chain.last().copied() == seen.last()
    }),
    ("a statement, one off the chain after its last", 100, |seen| {
        seen.stated() && !seen.chain.is_empty() && seen.chain.last().copied() < seen.last()
    }),
    ("a statement, one off the chain linked into it", 50, |seen| {
        seen.stated() && seen.is_joined()
    }),
    ("a statement, 10 or more on the chain", 20, |seen| {
        seen.stated() && seen.chain.len() >= 10
    }),
    ("a statement, 256 or more on the chain", 3, |seen| {
        seen.stated() && seen.chain.len() >= 256
    }),
    ("a statement linked from record 256 or later", 5, |seen| {
        seen.stated() && seen.chain.last().is_some_and(|last| *last >= 256)
    }),
    (
        "a statement, numbered 256 or later, linked from before 256",
        5,
        |seen| seen.stated() && seen.count() >= 256 && seen.chain.last().is_none_or(|last| *last < 256),
    ),
];
