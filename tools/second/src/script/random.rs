//! Random vocabularies with few atoms, and derivations over them.

use crate::comparison::vocabulary;
use crate::script::plan::Plan;

/// The most atoms of a random vocabulary.
const MOST_ATOMS: usize = 7;
/// How many vocabularies are drawn for each number of atoms.
const DRAWS: usize = 14;

impl Plan {
    /// Random vocabularies with one or two derivations each.
    pub fn random_scripts(&mut self) {
        for atoms in 0..=MOST_ATOMS {
            for _ in 0..DRAWS {
                let draft = vocabulary(atoms, &mut self.random);
                let each = 1 + self.random.below(2);
                self.derivations(&draft.bytes(), each);
            }
        }
    }
}
