//! Vocabularies with many atoms, many records or many rounds.

use crate::classification::plan::Plan;
use crate::classification::random::{full_of_statements, order};
use crate::comparison::{padded, push_last, vocabulary, MOST_ATOMS, STORED, WALK_12};

/// Fewer records than these stand between two of twelve names, so that all records fit.
const FEWER: usize = 34;

impl Plan {
    /// The vocabularies of the benchmarks as they are.
    pub fn benchmarks(&mut self) {
        for vocabulary in STORED {
            self.add(vocabulary);
        }
        self.add(WALK_12);
    }

    /// The small ones of them with as many records as there may be, names far apart, and many atoms.
    pub fn large(&mut self) {
        for vocabulary in [STORED[0], STORED[2], STORED[5]] {
            for _ in 0..3 {
                self.add_padded(vocabulary);
            }
        }
        for count in [1, 2, 5, 8, MOST_ATOMS] {
            for _ in 0..2 {
                let stated = order(count, &mut self.random);
                let vocabulary = stated.among_others(FEWER, (MOST_ATOMS - count).min(3), &mut self.random);
                self.add_table(&vocabulary, stated.table());
            }
        }
        for atoms in MOST_ATOMS - 3..=MOST_ATOMS {
            for _ in 0..6 {
                let draft = vocabulary(atoms, &mut self.random);
                self.add(&draft.bytes());
                let draft = full_of_statements(atoms, &mut self.random);
                self.add(&draft.bytes());
            }
        }
    }

    /// A padded vocabulary, and last a statement, off the chain and on it.
    fn add_padded(&mut self, vocabulary: &[u8]) {
        let mut draft = padded(vocabulary, &mut self.random);
        self.add(&draft.bytes());
        let end = push_last(&mut draft);
        self.add(&draft.bytes());
        draft.link(end, 511);
        self.add(&draft.bytes());
    }
}
