//! Additions one after the other from an empty vocabulary: each call is a case, whose buffer is the one that the call
//! before it left, and whose length in use is the one that it answered. Reading the buffer shows the additions so far.

use crate::comparison::{sample_4, v};
use crate::vocabulary::faults::way;
use crate::vocabulary::records::{bytes, records, Record, EDITION_1, EDITION_2};
use crate::vocabulary::Draft;
use crate::writer::call::write;
use crate::writer::file::{Call, Case};
use crate::writer::plan::{call_of, refused, Meant, Plan, Planned, Shown, LONGEST};
use crate::writer::rules::put;

/// How many short sequences there are.
const SHORT: usize = 40;
/// The most additions of a short one.
const ADDITIONS: usize = 16;
/// One in so many additions is one that is refused.
const ONE_IN_WRONG: usize = 4;
/// Of a long sequence every so many cases are kept, and the last ones.
const EVERY: usize = 45;
/// How many of the last ones.
const LAST: usize = 4;

/// A buffer in which additions are made.
pub struct Sequence {
    /// The buffer.
    buffer: Vec<u8>,
    /// What its bytes were before, and are behind those in use.
    seed: u8,
    /// The length in use.
    pub used: usize,
    /// What is to be read from it.
    shown: Shown,
    /// The cases so far.
    pub cases: Vec<Planned>,
}

impl Sequence {
    /// A buffer of so many bytes, in which an empty vocabulary is made, and put into edition 1: the making is one case,
    /// and what follows is added to a vocabulary as it was made before there was edition 2.
    fn new(lent: usize, seed: u8, roles: u16) -> Sequence {
        let mut sequence = Sequence::new_2(lent, seed, roles);
        put(&mut sequence.buffer, 0, &bytes(&[Record::header(roles)]));
        sequence.shown.edition = EDITION_1;
        sequence
    }

    /// A buffer of so many bytes, in which an empty vocabulary is made.
    pub fn new_2(lent: usize, seed: u8, roles: u16) -> Sequence {
        let shown = Shown {
            edition: EDITION_2,
            roles,
            additions: Vec::new(),
        };
        let mut sequence = Sequence {
            buffer: crate::lent::filled(lent, seed),
            seed,
            used: 0,
            shown,
            cases: Vec::new(),
        };
        let roles = roles.into();
        sequence.next(Call::Make { roles }, None);
        sequence
    }

    /// Makes a call, which is to be refused so, or not to be refused.
    pub fn next(&mut self, call: Call, refusal: Option<Meant>) {
        if refusal.is_none() && !matches!(call, Call::Make { .. }) {
            self.shown.additions.push(call);
        }
        let case = Case {
            content: self.buffer.iter().copied().take(self.used).collect(),
            behind: (self.buffer.len() - self.used) as u16,
            seed: self.seed,
            call,
            used: self.used as u64,
        };
        let meant = refusal.unwrap_or(Meant::Shows(self.shown.clone()));
        self.cases.push(Planned { case, meant });
        let answer = write(&mut self.buffer, self.used as u64, call);
        self.used = answer.unwrap_or(self.used);
    }

    /// The records in use.
    pub fn draft(&self) -> Draft {
        let in_use = self.buffer.get(..self.used);
        Draft {
            records: records(in_use.unwrap_or_default()),
        }
    }
}

impl Plan {
    /// V and sample 4 of the paper, each record added in its turn, in a buffer that they fill.
    pub fn samples(&mut self) {
        for sample in [v().bytes(), sample_4().bytes()] {
            let all = records(&sample);
            let roles = all.first().map_or(0, |header| header.fields[1]);
            let mut sequence = Sequence::new(sample.len(), self.random.byte(), roles);
            for record in all.iter().skip(1) {
                sequence.next(call_of(*record), None);
            }
            self.cases.extend(sequence.cases);
        }
    }

    /// Short sequences, some of whose additions are refused, in buffers that some of them fill.
    pub fn sequences(&mut self) {
        for _ in 0..SHORT {
            let roles = self.random.pick(&[0, 1, 2, 64]).unwrap_or(1);
            let lent = 8 * (4 + self.random.below(18)) + self.random.below(8);
            let mut sequence = Sequence::new(lent, self.random.byte(), roles);
            for _ in 0..ADDITIONS {
                self.next_of(&mut sequence);
            }
            self.cases.extend(sequence.cases);
        }
    }

    /// Makes the next call of a sequence: a record that may be added, or a wrong one; refused where there is no room.
    pub fn next_of(&mut self, sequence: &mut Sequence) {
        let draft = sequence.draft();
        let count = draft.records.len();
        let record = self.valid_record(&draft);
        let full = count == 512 || sequence.buffer.len() < sequence.used + 8;
        let wrong = way(5, record, &draft, count + 1, &mut self.random);
        let wrong = wrong.filter(|_| self.random.chance(ONE_IN_WRONG));
        match wrong {
            _ if full => sequence.next(call_of(record), Some(refused(27, count))),
            Some(wrong) => sequence.next(call_of(wrong), Some(refused(5, count))),
            None => sequence.next(call_of(record), None),
        }
    }

    /// Sequences up to 512 records and one more, in buffers of just that length and longer ones; names, terms and
    /// statements by turns, or statements alone. Few of their cases are kept.
    pub fn long_sequences(&mut self) {
        for (lent, all_kinds) in [(LONGEST, true), (LONGEST + 104, true), (LONGEST + 8, false)] {
            let mut sequence = Sequence::new(lent, self.random.byte(), 64);
            sequence.next(call_of(Record::new(1, 0, 0, 0)), None);
            while sequence.used < LONGEST {
                let statement = Record::new(9, 1, 1, 0);
                let record = if all_kinds {
                    self.valid_record(&sequence.draft())
                } else {
                    statement
                };
                sequence.next(call_of(record), None);
            }
            self.next_of(&mut sequence);
            self.keep_some(sequence);
        }
    }

    /// Keeps few of the cases of a long sequence.
    pub fn keep_some(&mut self, sequence: Sequence) {
        let last = sequence.cases.len() - LAST;
        let first = self.random.below(EVERY);
        let kept = sequence.cases.into_iter().enumerate();
        let kept = kept.filter(|(at, _)| at % EVERY == first || *at >= last);
        self.cases.extend(kept.map(|(_, planned)| planned));
    }
}
