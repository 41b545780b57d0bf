//! Additions one after the other from an empty vocabulary of edition 2.

use crate::comparison::{sample_4, v};
use crate::vocabulary::records::{records, Record};
use crate::writer::plan::{call_of, Plan, LONGEST};
use crate::writer::sequences::Sequence;

/// How many short sequences there are.
const SHORT: usize = 5;
/// The most additions of a short one.
const ADDITIONS: usize = 13;

/// What a long sequence adds.
#[derive(Clone, Copy)]
enum Long {
    /// Names.
    Names,
    /// Restrictions over top, of the two kinds by turns.
    Restrictions,
    /// Records of all kinds.
    Any,
}

impl Plan {
    /// The samples V and 4, short sequences of which some additions are refused, and sequences up to 512 records.
    pub fn edition_sequences(&mut self) {
        for sample in [v().bytes(), sample_4().bytes()] {
            let all = records(&sample);
            let roles = all.first().map_or(0, |header| header.fields[1]);
            let mut sequence = Sequence::new_2(sample.len(), self.random.byte(), roles);
            for record in all.iter().skip(1) {
                sequence.next(call_of(*record), None);
            }
            self.cases.extend(sequence.cases);
        }
        for _ in 0..SHORT {
            let roles = self.random.pick(&[0, 1, 2, 64]).unwrap_or(1);
            let lent = 8 * (6 + self.random.below(18)) + self.random.below(8);
            let mut sequence = Sequence::new_2(lent, self.random.byte(), roles);
            for _ in 0..ADDITIONS {
                self.next_of(&mut sequence);
            }
            self.cases.extend(sequence.cases);
        }
        for long in [Long::Names, Long::Restrictions, Long::Any] {
            self.long_sequence(long);
        }
    }

    /// A sequence up to 512 records and one more.
    fn long_sequence(&mut self, long: Long) {
        let lent = LONGEST + self.random.below(20);
        let mut sequence = Sequence::new_2(lent, self.random.byte(), 64);
        if !matches!(long, Long::Names) {
            sequence.next(call_of(Record::new(1, 0, 0, 0)), None);
        }
        while sequence.used < LONGEST {
            let count = (sequence.used / 8) as u16;
            let record = match long {
                Long::Names => Record::new(3, count.swap_bytes(), 0, 0),
                Long::Any => self.valid_record(&sequence.draft()),
                Long::Restrictions => Record::new(7 + (count % 2) as u8, count % 64, 1, 0),
            };
            sequence.next(call_of(record), None);
        }
        self.next_of(&mut sequence);
        self.keep_some(sequence);
    }
}
