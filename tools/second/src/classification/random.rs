//! Random vocabularies: names that are stated to lie within each other, and names among restrictions, nested terms and
//! statements on and off the chain.

use crate::classification::plan::Plan;
use crate::classification::stated::Node::{self, Bottom, Name, Top};
use crate::classification::stated::Stated;
use crate::classification::taxonomy::{names, Order};
use crate::comparison::{vocabulary, Set, Types, MOST_ATOMS};
use crate::random::{Random, Seed};
use crate::vocabulary::records::Record;
use crate::vocabulary::Draft;

/// The most atoms of a random vocabulary.
const MOST: usize = 8;
/// How many random orders there are for each number of names: in the stored cases, and with a seed.
const ORDERS: [usize; 2] = [60, 120];
/// How many vocabularies are drawn for each number of atoms, in the same way.
const DRAWS: [usize; 2] = [600, 1600];
/// How many of them are full of statements between names.
const FULL: usize = 3;

/// One of two numbers: that of the stored cases, or that of a seed.
fn number([stored, seeded]: [usize; 2], seed: Seed) -> usize {
    if seed.is_none() {
        stored
    } else {
        seeded
    }
}

/// Random inclusions between so many names, and now and then top or bottom: most rise, so that not all is equal.
pub fn order(count: usize, random: &mut Random) -> Stated {
    let mut stated = Stated::new(count, &[]);
    for _ in 0..random.below(2 * count + 2) {
        let [a, b] = [0, 1].map(|_| random.below(count));
        let [lower, upper] = if random.chance(8) { [a, b] } else { [a.min(b), a.max(b)] };
        let inclusion: [Node; 2] = match random.below(24) {
            0 => [Name(a), Bottom],
            1 => [Top, Name(b)],
            _ => [Name(lower), Name(upper)],
        };
        let [below, above] = inclusion;
        stated = stated.and(below, above);
    }
    stated
}

/// A random vocabulary with so many atoms, and statements in which its names meet restrictions and each other.
pub fn full_of_statements(atoms: usize, random: &mut Random) -> Draft {
    let mut draft = vocabulary(atoms, random);
    let all = draft.terms();
    let is_atom = |number: &&u16| {
        let record = draft.records.get(usize::from(**number));
        record.is_some_and(|record| matches!(record.kind, 3 | 7 | 8))
    };
    let atoms: Vec<u16> = all.iter().filter(is_atom).copied().collect();
    for _ in 0..random.below(2 * atoms.len() + 1) {
        let [a, b] = [&atoms, if random.chance(4) { &all } else { &atoms }].map(|terms| random.pick(terms));
        draft.records.extend(a.zip(b).map(|(a, b)| Record::new(9, a, b, 0)));
    }
    // Three statements of four stand on the chain.
    let statements = draft.statements();
    let chained: Vec<u16> = statements.into_iter().filter(|_| !random.chance(4)).collect();
    draft.chain(&chained);
    draft.link(chained.last().map_or(0, |last| usize::from(*last)), 0);
    draft
}

/// Whether the order of names is another at the types with which the rounds begin than at the survivors, and how many
/// of the names have a broader one.
fn interest(draft: &Draft) -> (bool, usize) {
    let types = Types::of(draft.records.clone());
    let (survivors, _) = types.survivors();
    let first = types.first_set(&crate::comparison::chained(&types.records));
    let names = names(&types.records);
    let order = |set: &Set| Order::at(&types, &names, set);
    let (before, after) = (order(&first), order(&survivors));
    let broader = |i: &usize| (0..names.len()).any(|j| after.broader(*i, j));
    (
        before.table() != after.table(),
        (0..names.len()).filter(broader).count(),
    )
}

impl Plan {
    /// Random orders, plain and among other records.
    pub fn random_orders(&mut self, seed: Seed) {
        for count in 1..=MOST_ATOMS {
            for _ in 0..number(ORDERS, seed) / if count > MOST { 4 } else { 1 } {
                let stated = order(count, &mut self.random);
                let restrictions = self.random.below((MOST_ATOMS - count).min(3) + 1);
                self.add_shuffled(&stated, restrictions);
            }
        }
    }

    /// Random vocabularies. Those where the rounds change the order of names, or names have broader ones, are all kept;
    /// of the others some.
    pub fn random_vocabularies(&mut self, seed: Seed) {
        for atoms in 1..=MOST {
            for draw in 0..number(DRAWS, seed) {
                let draft = match draw % (FULL + 1) {
                    0 => vocabulary(atoms, &mut self.random),
                    _ => full_of_statements(atoms, &mut self.random),
                };
                let one_in = match interest(&draft) {
                    (true, _) => 1,
                    (_, 2..) => 2,
                    (_, 1) => 4,
                    _ => 16,
                };
                if self.random.chance(one_in) {
                    self.add(&draft.bytes());
                }
            }
        }
    }
}
