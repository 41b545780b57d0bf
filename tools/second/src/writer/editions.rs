//! The writer over edition 2: what is made, additions that raise k and others that do not, refusals that leave it, wrong
//! k's.

use crate::comparison::{sound, spoil_count};
use crate::random::Random;
use crate::vocabulary::editions::{holding, second, wrong_counts};
use crate::vocabulary::faults::way;
use crate::vocabulary::records::{bytes, records, Record};
use crate::vocabulary::told::Late;
use crate::vocabulary::{edition_samples, long_samples, Draft};
use crate::writer::file::Call;
use crate::writer::own::can_be_asked;
use crate::writer::plan::{call_of, length, refused, Plan};

/// Numbers of records before the new one.
const COUNTS: [usize; 5] = [1, 2, 5, 12, 40];
/// Numbers of atoms around those at which k takes another byte, or is as large as it can be.
const ATOMS: [usize; 5] = [255, 255, 255, 256, 509];
/// The kinds of atoms, of other terms, and of statements.
const KINDS: [u8; 5] = [3, 7, 8, 4, 9];
/// All kinds, those of atoms more often.
const ALL_KINDS: [u8; 13] = [3, 7, 8, 1, 2, 3, 4, 5, 6, 7, 8, 9, 9];
/// Kinds of which a record is refused.
const REFUSED: [u8; 8] = [3, 7, 8, 3, 7, 8, 5, 9];
/// How many buffers have a longer vocabulary than is in use.
const TAILS: usize = 6;
/// The longest samples to which records of all kinds are added, in bytes.
const LONGEST: usize = 400;

/// Additions that ask row 28 after rows of their own.
pub const LATE: [Late; 2] = [
    ("27 before 28", &[27]),
    ("the new record's own rows before 28", &[3, 4, 5, 6, 7]),
];

/// A draft in edition 2, as its bytes.
fn bytes_2(draft: &Draft) -> Vec<u8> {
    second(&draft.bytes())
}

/// A vocabulary with so many atoms, and a few statements.
fn with_atoms(atoms: usize, random: &mut Random) -> Draft {
    let mut draft = Draft::new(3);
    for _ in 0..atoms {
        let kind = random.pick(&[3, 3, 7, 8]).unwrap_or(3);
        let record = draft.valid(kind, random).or_else(|| draft.valid(3, random));
        draft.records.extend(record);
        if random.chance(atoms) {
            draft.records.extend(draft.valid(9, random));
        }
    }
    draft.chain_random(random);
    draft
}

impl Plan {
    /// All but the sequences.
    pub fn editions(&mut self) {
        self.made_for_each_count();
        self.added_to_both();
        self.carried();
        self.own_rows_2();
        self.rooms_2();
        self.tails_2();
        for atoms in [4, 12, 20] {
            for wrong in 0..4 {
                self.mixture(28, &sound(atoms), wrong);
                self.mixture(0, &second(&sound(atoms)), wrong);
            }
        }
        for row in 1..=8 {
            let (bytes, place) = spoil_count(row, &sound(5), &mut self.random);
            let free = self.random.pick(&[0, 8]).unwrap_or(8);
            self.add_free(&bytes, free, Call::Term { kind: 1, a: 0, b: 0 }, refused(row, place));
        }
        self.samples_2();
    }

    /// An empty vocabulary for each role count, in buffers that hold vocabularies of either edition or other bytes.
    fn made_for_each_count(&mut self) {
        for roles in 0..=65 {
            let count = 1 + self.random.below(4);
            let first = self.vocabulary(count).bytes();
            let contents = [second(&first), first, Vec::new()];
            let content = contents.get(self.random.below(3)).cloned().unwrap_or_default();
            let meant = if roles <= 64 { length(8) } else { refused(2, 0) };
            self.push(&content, 8, 0, Call::Make { roles }, meant);
        }
    }

    /// A record of each kind added to a vocabulary in edition 2, and in edition 1.
    fn added_to_both(&mut self) {
        for count in COUNTS {
            for kind in ALL_KINDS {
                let draft = self.vocabulary(count);
                let Some(record) = draft.valid(kind, &mut self.random) else {
                    continue;
                };
                self.add_accepted_2(&draft, record);
                if self.random.chance(4) {
                    self.add_accepted(&draft, record);
                }
            }
        }
    }

    /// Adds a case for a record that is not refused, to a draft in edition 2.
    fn add_accepted_2(&mut self, draft: &Draft, record: Record) {
        let vocabulary = bytes_2(draft);
        self.add(&vocabulary, call_of(record), length(vocabulary.len() + 8));
    }

    /// Atoms, other terms and statements added where k is large.
    fn carried(&mut self) {
        for atoms in ATOMS {
            let draft = with_atoms(atoms, &mut self.random);
            for kind in KINDS {
                let record = draft.valid(kind, &mut self.random);
                if let (Some(record), true) = (record, draft.records.len() < 512) {
                    self.add_accepted_2(&draft, record);
                }
            }
        }
    }

    /// Rows 3 to 7 at the new record over edition 2, in each kind.
    fn own_rows_2(&mut self) {
        for count in [4, 20] {
            for kind in REFUSED {
                let draft = self.vocabulary(count);
                let Some(record) = draft.valid(kind, &mut self.random) else {
                    continue;
                };
                for row in 4..=7 {
                    let wrong = way(row, record, &draft, count + 1, &mut self.random);
                    if let Some(wrong) = wrong.filter(can_be_asked) {
                        self.add(&bytes_2(&draft), call_of(wrong), refused(row, count));
                    }
                }
                let [a, b, _] = record.fields;
                let kind = self.random.pick(&[0, 9, 10, 16, 128 + kind]).unwrap_or(0);
                if self.random.chance(2) {
                    self.add(&bytes_2(&draft), Call::Term { kind, a, b }, refused(3, count));
                }
            }
        }
    }

    /// No room over edition 2, in the buffer or in the vocabulary; beside a wrong k it is 28.
    fn rooms_2(&mut self) {
        for (count, free) in [(1, 7), (10, 0), (10, 3), (10, 7), (512, 0), (512, 8)] {
            let draft = self.vocabulary(count);
            let held = self.random.pick(&wrong_counts(&draft.records)).unwrap_or(0);
            let k = crate::vocabulary::editions::count(&draft.records);
            for kind in [3, 8, 9] {
                let record = draft.valid(kind, &mut self.random).unwrap_or(Record::new(1, 0, 0, 0));
                self.add_free(&bytes_2(&draft), free, call_of(record), refused(27, count));
                if kind != 8 {
                    self.add_free(&holding(&draft.bytes(), held), free, call_of(record), refused(28, k));
                }
            }
        }
    }

    /// Additions to the beginnings of longer vocabularies: atoms behind the bytes in use count for nothing.
    fn tails_2(&mut self) {
        for _ in 0..TAILS {
            let mut draft = Draft::random(3, 24, &mut self.random);
            let tail = draft.records.split_off(2 + self.random.below(15));
            let vocabulary = bytes_2(&draft);
            let content = [vocabulary.clone(), bytes(&tail)].concat();
            for kind in [3, 4, 9] {
                if let Some(record) = draft.valid(kind, &mut self.random) {
                    let meant = length(vocabulary.len() + 8);
                    self.push(&content, 0, vocabulary.len() as u64, call_of(record), meant);
                }
            }
        }
    }

    /// The samples of both editions, and additions that suit the accepted ones.
    fn samples_2(&mut self) {
        let samples = [edition_samples(&mut self.random), long_samples(&mut self.random)].concat();
        for (vocabulary, answer) in samples {
            self.any_addition(&vocabulary);
            let draft = Draft {
                records: records(&vocabulary),
            };
            let short = answer.is_ok() && vocabulary.len() <= LONGEST;
            for kind in KINDS.into_iter().filter(|_| short) {
                if let Some(record) = draft.valid(kind, &mut self.random) {
                    self.add_accepted(&draft, record);
                }
            }
        }
    }
}
