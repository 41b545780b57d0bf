//! Random vocabularies with few atoms, several roles, nested terms, and statements on and off the
//! chain.

use crate::comparison::plan::Plan;
use crate::comparison::types::Types;
use crate::random::Random;
use crate::vocabulary::records::Record;
use crate::vocabulary::Draft;

/// The most atoms of a random vocabulary.
const MOST_ATOMS: usize = 8;
/// How many vocabularies are drawn for each number of atoms.
const DRAWS: usize = 500;

/// Kinds in random order: so many atoms, and some terms and statements of other kinds.
fn kinds(atoms: usize, random: &mut Random) -> Vec<u8> {
    let mut kinds: Vec<u8> = (0..atoms).filter_map(|_| random.pick(&[3, 3, 7, 7, 8])).collect();
    let terms = random.below(8);
    kinds.extend((0..terms).filter_map(|_| random.pick(&[1, 2, 4, 4, 5, 5, 6, 6])));
    kinds.extend(std::iter::repeat_n(9, random.below(6)));
    random.shuffle(&mut kinds);
    kinds
}

/// A random vocabulary with so many atoms. Where no term stands yet, top or bottom comes first.
pub fn vocabulary(atoms: usize, random: &mut Random) -> Draft {
    let roles = random.pick(&[1, 1, 2, 3, 64]).unwrap_or(1);
    let mut draft = Draft::new(roles);
    for kind in kinds(atoms, random) {
        if draft.valid(kind, random).is_none() {
            let first = 1 + random.below(2) as u8;
            draft.records.push(Record::new(first, 0, 0, 0));
        }
        let record = draft.valid(kind, random).map(|r| on_a_used_role(r, &draft, random));
        draft.records.extend(record);
    }
    draft.chain_random(random);
    draft
}

/// A restriction on a role that another has already, half of the time, so that they meet.
fn on_a_used_role(record: Record, draft: &Draft, random: &mut Random) -> Record {
    let is_restriction = |r: &&Record| r.kind == 7 || r.kind == 8;
    let used: Vec<u16> = draft
        .records
        .iter()
        .filter(is_restriction)
        .map(|r| r.fields[0])
        .collect();
    let mut changed = record;
    if is_restriction(&&record) && random.chance(2) {
        changed.fields[0] = random.pick(&used).unwrap_or(record.fields[0]);
    }
    changed
}

impl Plan {
    /// Random vocabularies. Those where several rounds remove something are rare, and all kept;
    /// of the others some.
    pub fn random_vocabularies(&mut self) {
        for atoms in 0..=MOST_ATOMS {
            for _ in 0..DRAWS {
                let draft = vocabulary(atoms, &mut self.random);
                let (survivors, rounds) = Types::of(draft.records.clone()).survivors();
                let one_in = match (survivors.len(), rounds) {
                    (0, _) => 8,
                    (_, 0 | 1) => 4,
                    _ => 1,
                };
                if self.random.chance(one_in) {
                    self.add_pairs(&draft.bytes(), 1);
                }
            }
        }
    }
}
