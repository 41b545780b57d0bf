//! Vocabularies with many atoms, many records or many rounds, and those of the benchmarks.

use crate::comparison::plan::Plan;
use crate::random::Random;
use crate::vocabulary::records::{records, Record};
use crate::vocabulary::Draft;
use crate::vocabulary::{chain, MOST_RECORDS};

/// The vocabularies of the benchmarks on which pairs of terms are chosen.
pub const STORED: [&[u8]; 6] = [
    include_bytes!("../../../../bench/data/walk8.bin"),
    include_bytes!("../../../../bench/data/walk10.bin"),
    include_bytes!("../../../../bench/data/counter2_8.bin"),
    include_bytes!("../../../../bench/data/counter2_12.bin"),
    include_bytes!("../../../../bench/data/late12.bin"),
    include_bytes!("../../../../bench/data/never12.bin"),
];

/// The one with 1,005 rounds, for which one case is enough.
pub const WALK_12: &[u8] = include_bytes!("../../../../bench/data/walk12.bin");

/// The last record of the chain, or the header.
fn chain_end(draft: &Draft) -> usize {
    chain(&draft.records).last().map_or(0, |last| usize::from(*last))
}

/// A vocabulary with terms of kinds 1 to 6 but no atom pushed, until there is room for one record more.
pub fn padded(vocabulary: &[u8], random: &mut Random) -> Draft {
    let mut draft = Draft {
        records: records(vocabulary),
    };
    while draft.records.len() < MOST_RECORDS - 1 {
        let kind = random.pick(&[1, 2, 4, 4, 5, 5, 6, 6]).unwrap_or(1);
        draft.records.extend(draft.valid(kind, random));
    }
    draft
}

/// Pushes the statement that one of the last terms lies within the one before it, off the chain, and answers where the
/// chain ends.
pub fn push_last(draft: &mut Draft) -> usize {
    let end = chain_end(draft);
    draft.records.push(Record::new(9, 510, 509, 0));
    end
}

impl Plan {
    /// The vocabularies of the benchmarks as they are.
    pub fn benchmarks(&mut self) {
        for vocabulary in STORED {
            self.add_pairs(vocabulary, 2);
        }
        self.add(WALK_12, 1, 2, "different ");
    }

    /// The small ones of them with as many records as there may be, and many atoms.
    pub fn large(&mut self) {
        for vocabulary in [STORED[0], STORED[2], STORED[5]] {
            for _ in 0..3 {
                self.add_padded(vocabulary);
            }
        }
        self.many_atoms();
    }

    /// A padded vocabulary, and last a statement that ends the chain. The late terms are compared, with each other and
    /// with early ones.
    fn add_padded(&mut self, vocabulary: &[u8]) {
        let mut draft = padded(vocabulary, &mut self.random);
        self.add(&draft.bytes(), 510, 1, "");
        let end = push_last(&mut draft);
        self.add(&draft.bytes(), 509, 510, "");
        draft.link(end, 511);
        self.add(&draft.bytes(), 510, 509, "");
        self.add(&draft.bytes(), 510, 511, "refused 10 511 ");
        self.add(&draft.bytes(), 300, 1, "");
    }

    /// Random vocabularies of 9 to 12 atoms.
    fn many_atoms(&mut self) {
        for atoms in 9..=12 {
            for _ in 0..6 {
                let draft = crate::comparison::random::vocabulary(atoms, &mut self.random);
                self.add_pairs(&draft.bytes(), 1);
            }
        }
    }
}
