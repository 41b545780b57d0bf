//! The cases of the comparison, in groups. A case carries how its expected line has to begin, where
//! the paper or its making says so.

use crate::comparison::call::first_difference;
use crate::comparison::file::Case;
use crate::comparison::types::Types;
use crate::plan;
use crate::random::Seed;
use crate::vocabulary::records::{records, terms};

/// The seed of all random choices in the stored cases.
const SEED: u64 = 20_240_715;

/// Numbers of lent bytes that are enough.
const ENOUGH: [u16; 8] = [512, 512, 512, 513, 519, 600, 768, 1024];

/// A case, and how its expected line has to begin.
pub type Planned = plan::Planned<Case, String>;
/// The cases so far, and the source of random choices.
pub type Plan = plan::Plan<Case, String>;

/// All cases. With a seed of its own a run leaves out what is the same in every run. What was made later follows what
/// was stored before.
pub fn all(seed: Seed) -> Vec<Planned> {
    Plan::made(seed.unwrap_or(SEED), |plan| {
        if seed.is_none() {
            plan.samples();
            plan.families();
        }
        plan.random_vocabularies();
        if seed.is_none() {
            plan.benchmarks();
        }
        plan.large();
        plan.refusals(seed);
        plan.editions();
    })
}

impl Plan {
    /// Adds a case that lends enough bytes.
    pub fn add(&mut self, vocabulary: &[u8], a: u32, b: u32, meant: &str) {
        let lent = self.random.pick(&ENOUGH).unwrap_or(512);
        self.add_lent(vocabulary, [a, b], lent, meant);
    }

    /// Adds a case.
    pub fn add_lent(&mut self, vocabulary: &[u8], [a, b]: [u32; 2], lent: u16, meant: &str) {
        let case = Case {
            vocabulary: vocabulary.to_vec(),
            a,
            b,
            lent,
            seed: self.random.byte(),
        };
        self.push(case, meant);
    }

    /// Adds a case as it is.
    pub fn push(&mut self, case: Case, meant: &str) {
        let meant = meant.to_string();
        self.cases.push(Planned { case, meant });
    }

    /// Adds an accepted vocabulary with some pairs of terms that are equal, some that differ at type
    /// 0, and some that differ at a later type first: up to `each` of each sort.
    pub fn add_pairs(&mut self, vocabulary: &[u8], each: usize) {
        let types = Types::of(records(vocabulary));
        let (set, _) = types.survivors();
        let terms: Vec<u32> = terms(&types.records).into_iter().map(|n| n as u32).collect();
        let mut sorts: [Vec<[u32; 2]>; 3] = Default::default();
        for a in &terms {
            for b in terms.iter().filter(|b| *b != a) {
                let [equal, at_once, later] = &mut sorts;
                let sort = match first_difference(&types, &set, *a, *b) {
                    None => equal,
                    Some(0) => at_once,
                    Some(_) => later,
                };
                sort.push([*a, *b]);
            }
        }
        for (pairs, meant) in sorts.iter().zip(["equal ", "different 0 ", "different "]) {
            for _ in 0..each.min(pairs.len()) {
                let [a, b] = self.random.pick(pairs).unwrap_or([1, 1]);
                self.add(vocabulary, a, b, meant);
            }
        }
    }
}
