//! Lengths in use that row 1 refuses, free bytes around eight, and as many records as there may be.

use crate::vocabulary::faults::way;
use crate::vocabulary::records::Record;
use crate::vocabulary::Draft;
use crate::writer::file::Call;
use crate::writer::plan::{call_of, length, refused, Plan, LONGEST};

/// Lengths past any buffer; some are the length of a vocabulary once they are cut to 32 bits.
const FAR: [u64; 9] = [
    1 << 16,
    1 << 32,
    (1 << 32) + 8,
    1 << 63,
    (1 << 63) + 16,
    u64::MAX - 15,
    u64::MAX - 7,
    u64::MAX - 1,
    u64::MAX,
];

impl Plan {
    /// Row 1: lengths past the buffer, under 8, no multiple of 8 and over 4,096.
    pub fn wrong_lengths(&mut self) {
        for (count, free) in [(1, 0), (1, 8), (2, 5), (12, 0), (12, 7), (12, 16), (30, 64)] {
            let draft = self.vocabulary(count);
            let lent = (8 * count + free) as u64;
            for past in [1, 2, 7, 8, 9, 16, 24] {
                self.wrong_length(&draft, free, lent + past);
            }
            for far in FAR {
                self.wrong_length(&draft, free, far);
                self.wrong_length(&draft, free, far.wrapping_add(8 * count as u64).max(1 << 16));
            }
            for short in 0..8 {
                self.wrong_length(&draft, free, short.min(lent));
            }
            for odd in [9, 12, 15, lent - 7, lent - 4, lent - 1] {
                if odd % 8 != 0 {
                    self.wrong_length(&draft, free, odd);
                }
            }
        }
        self.no_bytes();
        self.over_longest();
    }

    /// Buffers of no byte, and of fewer than a header has.
    fn no_bytes(&mut self) {
        for lent in 0..8 {
            for used in [0, 1, 4, 7, 8, 16, u64::MAX] {
                let call = self.any_call(&Draft::new(1));
                self.push(&[], lent, used, call, refused(1, 0));
            }
        }
    }

    /// Lengths over 4,096 in a buffer that has them, and past a buffer of that length.
    fn over_longest(&mut self) {
        let draft = self.vocabulary(512);
        let bytes = draft.bytes();
        for over in [1, 7, 8, 16, 100, 104] {
            for lent in [0, over, over + 8] {
                let call = self.any_call(&draft);
                self.push(&bytes, lent, (LONGEST + over) as u64, call, refused(1, 0));
            }
        }
    }

    /// Adds a case with a length in use that row 1 refuses.
    fn wrong_length(&mut self, draft: &Draft, free: usize, used: u64) {
        let call = self.any_call(draft);
        self.push(&draft.bytes(), free, used, call, refused(1, 0));
    }

    /// A call that adds something: mostly a record that may be added.
    pub fn any_call(&mut self, draft: &Draft) -> Call {
        let record = self.valid_record(draft);
        let kind = self.random.pick(&[record.kind, record.kind, record.kind, 0, 9, 10]);
        call_of(Record {
            kind: kind.unwrap_or(0),
            ..record
        })
    }

    /// A record that one of rows 3 to 7 refuses.
    pub fn wrong_record(&mut self, draft: &Draft) -> Record {
        let record = self.valid_record(draft);
        let row = 4 + self.random.below(4) as u8;
        let count = draft.records.len() + 1;
        let wrong = way(row, record, draft, count, &mut self.random);
        let wrong = wrong.filter(|wrong| wrong.second == 0 && wrong.fields[2] == 0);
        wrong.unwrap_or(Record::new(0, record.fields[0], record.fields[1], 0))
    }

    /// Row 27: each number of free bytes up to 17, with records that may be added and others.
    pub fn free_bytes(&mut self) {
        for count in [1, 2, 3, 9, 20, 33] {
            for free in 0..18 {
                let draft = self.vocabulary(count);
                self.with_free(&draft, free);
            }
        }
        for free in [0, 6, 7, 8, 9] {
            for count in [256, 510, 511] {
                let draft = self.vocabulary(count);
                self.with_free(&draft, free);
            }
        }
    }

    /// A term and a statement that may be added, and a record that may not, with so many free bytes.
    fn with_free(&mut self, draft: &Draft, free: usize) {
        let (count, vocabulary) = (draft.records.len(), draft.bytes());
        let statement = draft.valid(9, &mut self.random);
        let term = self.valid_record(draft);
        for record in statement.into_iter().chain([term]) {
            let meant = match free {
                0..8 => refused(27, count),
                _ => length(8 * count + 8),
            };
            self.add_free(&vocabulary, free, call_of(record), meant);
        }
        let wrong = self.wrong_record(draft);
        if free < 8 {
            self.add_free(&vocabulary, free, call_of(wrong), refused(27, count));
        }
    }

    /// 512 records, with and without free bytes.
    pub fn full_vocabularies(&mut self) {
        for free in [0, 1, 7, 8, 9, 16, 100, 104] {
            let draft = self.vocabulary(512);
            let vocabulary = draft.bytes();
            for record in [self.valid_record(&draft), self.wrong_record(&draft)] {
                self.add_free(&vocabulary, free, call_of(record), refused(27, 512));
            }
            let [a, b] = [0; 2].map(|_| self.random.pick(&draft.terms()).unwrap_or(1));
            self.add_free(&vocabulary, free, Call::Statement { a, b }, refused(27, 512));
        }
        for free in [8, 9, 16, 112] {
            let draft = self.vocabulary(511);
            let vocabulary = draft.bytes();
            let [a, b] = [0; 2].map(|_| self.random.pick(&draft.terms()).unwrap_or(1));
            self.add_free(&vocabulary, free, Call::Statement { a, b }, length(LONGEST));
            let record = self.valid_record(&draft);
            self.add_free(&vocabulary, free, call_of(record), length(LONGEST));
        }
    }
}
