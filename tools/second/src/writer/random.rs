//! Random additions to random vocabularies, some of them damaged.

use crate::random::Seed;
use crate::vocabulary::Draft;
use crate::writer::file::Call;
use crate::writer::plan::{anything, call_of, Plan};

/// How many there are among the stored cases, and how many by another seed.
const ADDITIONS: [usize; 2] = [450, 2600];
/// The most records of these vocabularies.
const MOST: usize = 40;
/// One in so many vocabularies has a byte damaged, and one in so many lengths in use is any.
const ONE_IN: [usize; 2] = [6, 20];

impl Plan {
    /// Random additions.
    pub fn random_additions(&mut self, seed: Seed) {
        let [stored, seeded] = ADDITIONS;
        for _ in 0..seed.map_or(stored, |_| seeded) {
            let count = 1 + self.random.below(MOST);
            let draft = self.vocabulary(count);
            let call = self.random_call(&draft);
            self.random_addition(draft.bytes(), call);
        }
    }

    /// A call of any sort: a record that may be added, one that may not, or one of small numbers.
    fn random_call(&mut self, draft: &Draft) -> Call {
        match self.random.below(4) {
            0 => call_of(self.wrong_record(draft)),
            1 => {
                let end = draft.records.len() + 2;
                let [a, b] = [0; 2].map(|_| self.random.below(end) as u16);
                let kind = self.random.below(11) as u8;
                let term = Call::Term { kind, a, b };
                self.random
                    .pick(&[term, term, Call::Statement { a, b }])
                    .unwrap_or(term)
            }
            _ => call_of(self.valid_record(draft)),
        }
    }

    /// An addition to bytes, which may be damaged first, with any number of free bytes.
    fn random_addition(&mut self, mut bytes: Vec<u8>, call: Call) {
        let [damaged, any_length] = ONE_IN;
        if self.random.chance(damaged) {
            let (at, value) = (self.random.below(bytes.len()), self.random.below(18) as u8);
            let changed = bytes.iter_mut().skip(at).take(1);
            changed.for_each(|byte| *byte = value);
        }
        let free = if self.random.chance(6) {
            self.random.below(8)
        } else {
            self.enough(bytes.len())
        };
        let exact = bytes.len() as u64;
        let used = if self.random.chance(any_length) {
            self.random.below(bytes.len() + free + 9) as u64
        } else {
            exact
        };
        self.push(&bytes, free, used, call, anything());
    }
}
