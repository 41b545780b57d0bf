//! The cases of the script check, in groups. A case carries its expected line, where the paper or
//! its making says so.

use crate::random::{Random, Seed};
use crate::script::columns::Matrix;
use crate::script::file::Case;
use crate::script::prover::{Prover, Step};
use crate::script::records::{at, decode, encode, Script, Words};
use crate::script::writer::{write, Writer};
use crate::vocabulary::chain;
use crate::vocabulary::records::records;

/// The seed of all random choices in the stored cases.
const SEED: u64 = 20_240_928;

/// A case, and its expected line; empty where its making does not say it.
pub struct Planned {
    /// The case.
    pub case: Case,
    /// The line.
    pub meant: String,
}

/// A script that is accepted, from which others are made.
#[derive(Clone)]
pub struct Base {
    /// The bytes of the vocabulary.
    pub vocabulary: Vec<u8>,
    /// The script.
    pub writer: Writer,
}

/// The cases so far, the accepted scripts to be damaged, and the source of random choices.
pub struct Plan {
    /// The cases.
    pub cases: Vec<Planned>,
    /// The accepted scripts.
    pub bases: Vec<Base>,
    /// The source.
    pub random: Random,
}

/// All cases. With a seed of its own a run leaves out the samples, with repeats too, and the terms
/// without a record, which are the same in every run. What was made later follows what was stored before.
pub fn all(seed: Seed) -> Vec<Planned> {
    let mut plan = Plan {
        cases: Vec::new(),
        bases: Vec::new(),
        random: Random::new(seed.unwrap_or(SEED)),
    };
    if seed.is_none() {
        plan.samples();
    }
    plan.families();
    plan.random_scripts();
    plan.low_towers();
    plan.damaged(seed);
    plan.walks();
    plan.high_towers();
    plan.long();
    if seed.is_none() {
        plan.unrecorded();
        plan.repeated_samples();
    }
    plan.deep_repeats();
    plan.rewritten(seed);
    if seed.is_none() {
        plan.idle_repeats();
    }
    plan.reduced_repeats();
    plan.rewritten_reductions();
    plan.editions();
    plan.cases
}

/// The matrix of a vocabulary and a query.
pub fn matrix(vocabulary: &[u8], query: [u16; 2]) -> Matrix {
    let records = records(vocabulary);
    Matrix {
        statements: chain(&records),
        records,
        query,
    }
}

/// The script of a case, with its matrix.
pub fn script_of(case: &Case) -> Script {
    let records = decode(&case.script);
    let [_, a, b, ..] = at(&records, 0);
    Script {
        matrix: matrix(&case.vocabulary, [a, b]),
        records,
    }
}

/// The line of a refusal.
pub fn refused(number: u8, place: usize) -> String {
    format!("refused {number} {place}")
}

impl Base {
    /// The script, with its matrix.
    pub fn script(&self) -> Script {
        Script {
            matrix: self.matrix(),
            records: self.writer.records.clone(),
        }
    }

    /// The matrix of the script.
    pub fn matrix(&self) -> Matrix {
        let [_, a, b, ..] = self.writer.record(0);
        matrix(&self.vocabulary, [a, b])
    }
}

impl Plan {
    /// Adds a case.
    pub fn add(&mut self, vocabulary: &[u8], script: Vec<u8>, meant: &str) {
        let case = Case {
            vocabulary: vocabulary.to_vec(),
            script,
        };
        let meant = meant.to_string();
        self.cases.push(Planned { case, meant });
    }

    /// Adds a case of script records.
    pub fn add_records(&mut self, vocabulary: &[u8], records: &[Words], meant: &str) {
        self.add(vocabulary, encode(records), meant);
    }

    /// Adds a script that is accepted, and keeps it to be damaged.
    pub fn add_base(&mut self, base: Base) {
        let meant = format!("accepted {}", base.writer.chain.len());
        self.add(&base.vocabulary, base.writer.bytes(), &meant);
        self.bases.push(base);
    }

    /// A derivation of a query: a shortest path, or a path of a bound from which it may wander.
    pub fn derive(&mut self, matrix: &Matrix, first: usize, last: usize) -> Option<Vec<Step>> {
        Prover::new(matrix, &mut self.random).derive(first, last)
    }

    /// A derivation as a script, with records that it does not need once in `idle` times.
    pub fn write(&mut self, vocabulary: &[u8], matrix: &Matrix, steps: &[Step], idle: usize) -> Base {
        let early = self.random.chance(3);
        Base {
            vocabulary: vocabulary.to_vec(),
            writer: write(matrix, steps, early, idle, &mut self.random),
        }
    }
}
