//! Vocabularies that rows 1 to 8 refuse, and mixtures of refusals, of which the first in order is given.

use crate::cases::with_byte;
use crate::comparison::{sound, spoil, spoil_count};
use crate::random::Seed;
use crate::vocabulary;
use crate::vocabulary::records::{records, Record};
use crate::vocabulary::{check_vocabulary, refused_before, Draft};
use crate::writer::plan::{anything, call_of, length, refused, Meant, Plan};

/// One in so many refused cases of the vocabulary check is added to: of short ones, and of long ones.
const ONE_IN: [usize; 2] = [7, 16];
/// The longest of the short ones, in bytes.
const SHORT: usize = 400;
/// Where the low byte of the header's A stands.
const HEADER_A: usize = 2;
/// The longest buffer, in bytes.
const MOST_LENT: usize = 8192;

impl Plan {
    /// A vocabulary that a row refuses, or none; room for a record, or none; a record that may be added, or a wrong one.
    /// Where the row is one of a record, its header's A is wrong too in some.
    pub fn mixtures(&mut self) {
        for row in 0..=8 {
            for atoms in [4, 12, 20] {
                for wrong in 0..4 {
                    self.mixture(row, &sound(atoms), wrong);
                }
            }
        }
        for row in 2..=7 {
            self.mixture(row, &with_byte(&sound(5), HEADER_A, 1), 0);
        }
    }

    /// A mixture, by the row (0 for none) and by the bits of `wrong`.
    pub fn mixture(&mut self, row: u8, vocabulary: &[u8], wrong: usize) {
        let draft = Draft {
            records: records(vocabulary),
        };
        let count = draft.records.len();
        let [lacks, spoilt] = [wrong & 1 == 1, wrong & 2 == 2];
        let free = if lacks {
            self.random.below(8)
        } else {
            8 + self.random.below(9)
        };
        let statement = Record::new(9, if spoilt { count as u16 } else { 1 }, 1, 0);
        let other = if spoilt {
            self.wrong_record(&draft)
        } else {
            self.valid_record(&draft)
        };
        for record in [other, statement] {
            let (bytes, place) = match row {
                0 => (vocabulary.to_vec(), 0),
                28 => spoil_count(row, vocabulary, &mut self.random),
                _ => spoil(row, vocabulary),
            };
            let meant = match row {
                0 if lacks => refused(27, count),
                0 if spoilt => Meant::Line("refused ".to_string()),
                0 => length(vocabulary.len() + 8),
                _ => refused(row, place),
            };
            self.add_free(&bytes, free, call_of(record), meant);
        }
    }

    /// Some of the vocabularies that the vocabulary check refuses.
    pub fn refused_vocabularies(&mut self, seed: Seed) {
        for planned in vocabulary::earlier(seed) {
            let bytes = planned.case.vocabulary;
            if refused_before(&bytes).is_none() {
                continue;
            }
            let [of_short, of_long] = ONE_IN;
            let one_in = if bytes.len() <= SHORT { of_short } else { of_long };
            if bytes.len() + 64 <= MOST_LENT && self.random.chance(one_in) {
                self.any_addition(&bytes);
            }
        }
    }

    /// An addition to a vocabulary, which may be refused, with room or without.
    pub fn any_addition(&mut self, bytes: &[u8]) {
        let draft = Draft {
            records: records(bytes),
        };
        let call = self.any_call(&draft);
        let free = self.random.pick(&[0, 7, 8, 16, 64]).unwrap_or(8);
        let meant = match check_vocabulary(bytes) {
            Err(refusal) => refused(refusal.number, refusal.place),
            Ok(_) => anything(),
        };
        self.add_free(bytes, free, call, meant);
    }
}
