//! The cases of the classification, in groups. A case carries how its expected line has to begin, or which table is to
//! be written, where the paper or its making says so.

use crate::classification::file::Case;
use crate::classification::taxonomy::Table;
use crate::plan;
use crate::random::Seed;

/// The seed of all random choices in the stored cases.
const SEED: u64 = 20_261_116;

/// Numbers of bytes that are enough for the survivors, and for the taxonomy.
const ENOUGH: [[u16; 7]; 2] = [
    [512, 512, 513, 519, 600, 768, 1024],
    [144, 144, 145, 151, 200, 512, 1024],
];

/// What a case is made for.
pub enum Meant {
    /// Its expected line begins so.
    Line(String),
    /// The table is this one.
    Table(Table),
}

/// A case, and what it is made for.
pub type Planned = plan::Planned<Case, Meant>;
/// The cases so far, and the source of random choices.
pub type Plan = plan::Plan<Case, Meant>;

/// All cases. With a seed of its own a run leaves out what is the same in every run. What was made later follows what
/// was stored before.
pub fn all(seed: Seed) -> Vec<Planned> {
    Plan::made(seed.unwrap_or(SEED), |plan| {
        if seed.is_none() {
            plan.samples();
            plan.shapes();
            plan.by_elimination();
            plan.benchmarks();
        }
        plan.random_orders(seed);
        plan.random_vocabularies(seed);
        plan.large();
        plan.refusals(seed);
        plan.halves();
        plan.editions();
    })
}

impl Plan {
    /// Adds a case that lends enough bytes, and of which the making says nothing.
    pub fn add(&mut self, vocabulary: &[u8]) {
        self.add_meant(vocabulary, Meant::Line("counts ".to_string()));
    }

    /// Adds a case that lends enough bytes, for a table.
    pub fn add_table(&mut self, vocabulary: &[u8], table: Table) {
        self.add_meant(vocabulary, Meant::Table(table));
    }

    /// Adds a case that lends enough bytes, for what it is made for.
    pub fn add_meant(&mut self, vocabulary: &[u8], meant: Meant) {
        let [survivors, taxonomy] = ENOUGH.map(|lengths| self.random.pick(&lengths));
        let lent = [survivors.unwrap_or(512), taxonomy.unwrap_or(144)];
        self.push(vocabulary, lent, meant);
    }

    /// Adds a case for a line.
    pub fn add_lent(&mut self, vocabulary: &[u8], lent: [u16; 2], meant: &str) {
        self.push(vocabulary, lent, Meant::Line(meant.to_string()));
    }

    /// Adds a case.
    fn push(&mut self, vocabulary: &[u8], lent: [u16; 2], meant: Meant) {
        let case = Case {
            vocabulary: vocabulary.to_vec(),
            lent,
            seed: self.random.byte(),
        };
        self.cases.push(Planned { case, meant });
    }
}
