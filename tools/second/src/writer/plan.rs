//! The cases of the writer, in groups. A case carries how its expected line has to begin, or which additions are to be
//! read from the buffer, where the paper or its making says so.

use crate::plan;
use crate::random::Seed;
use crate::vocabulary::records::Record;
use crate::vocabulary::Draft;
use crate::writer::file::{Call, Case};
use crate::writer::rules::STATEMENT;

/// The seed of all random choices in the stored cases.
const SEED: u64 = 20_261_117;

/// Numbers of free bytes that are enough for a record.
const ENOUGH: [u16; 12] = [8, 8, 8, 9, 11, 14, 15, 16, 17, 24, 40, 64];
/// One in so many buffers is longer than any vocabulary.
const ONE_IN_LONG: usize = 12;
/// How much longer such a buffer may be.
const LONGER: usize = 110;
/// The bytes of the longest vocabulary.
pub const LONGEST: usize = 4096;

/// What is read from a buffer: the edition, the roles, and the additions in their order.
#[derive(Clone, Debug, PartialEq, Eq)]
pub struct Shown {
    /// The header's second byte.
    pub edition: u8,
    /// The role count.
    pub roles: u16,
    /// The additions.
    pub additions: Vec<Call>,
}

/// What a case is made for.
pub enum Meant {
    /// Its expected line begins so.
    Line(String),
    /// Reading the buffer shows this.
    Shows(Shown),
}

/// A case, and what it is made for.
pub type Planned = plan::Planned<Case, Meant>;
/// The cases so far, and the source of random choices.
pub type Plan = plan::Plan<Case, Meant>;

/// All cases. With a seed of its own a run leaves out what is the same in every run, and has more random cases. What was
/// made later follows what was stored before.
pub fn all(seed: Seed) -> Vec<Planned> {
    Plan::made(seed.unwrap_or(SEED), |plan| {
        if seed.is_none() {
            plan.made_vocabularies();
            plan.samples();
            plan.small_chains();
        }
        plan.random_making();
        plan.wrong_lengths();
        plan.free_bytes();
        plan.full_vocabularies();
        plan.own_rows();
        plan.pairs_of_rows();
        plan.other_kinds();
        plan.chains();
        plan.long_chains();
        plan.sequences();
        plan.long_sequences();
        plan.tails();
        plan.mixtures();
        plan.refused_vocabularies(seed);
        plan.random_additions(seed);
        plan.editions();
        plan.edition_sequences();
    })
}

/// The line of a refusal begins so.
pub fn refused(number: u8, place: usize) -> Meant {
    Meant::Line(format!("refused {number} {place} "))
}

/// The line of a new length begins so.
pub fn length(length: usize) -> Meant {
    Meant::Line(format!("length {length} "))
}

/// Nothing is meant.
pub fn anything() -> Meant {
    Meant::Line(String::new())
}

/// The call that adds a record: a statement as such, all else as a term.
pub fn call_of(record: Record) -> Call {
    let [a, b, _] = record.fields;
    match record.kind {
        STATEMENT => Call::Statement { a, b },
        kind => Call::Term { kind, a, b },
    }
}

impl Plan {
    /// Adds a case.
    pub fn push(&mut self, content: &[u8], behind: usize, used: u64, call: Call, meant: Meant) {
        let case = Case {
            content: content.to_vec(),
            behind: behind as u16,
            seed: self.random.byte(),
            call,
            used,
        };
        self.cases.push(Planned { case, meant });
    }

    /// Adds a case in which a whole vocabulary is in use, and so many bytes are free.
    pub fn add_free(&mut self, vocabulary: &[u8], free: usize, call: Call, meant: Meant) {
        self.push(vocabulary, free, vocabulary.len() as u64, call, meant);
    }

    /// Adds a case in which a whole vocabulary is in use, and enough bytes are free.
    pub fn add(&mut self, vocabulary: &[u8], call: Call, meant: Meant) {
        let free = self.enough(vocabulary.len());
        self.add_free(vocabulary, free, call, meant);
    }

    /// Adds a case for a record that is not refused, to a draft.
    pub fn add_accepted(&mut self, draft: &Draft, record: Record) {
        let vocabulary = draft.bytes();
        self.add(&vocabulary, call_of(record), length(vocabulary.len() + 8));
    }

    /// Enough free bytes behind so many: sometimes so many that the buffer is longer than any vocabulary.
    pub fn enough(&mut self, used: usize) -> usize {
        if self.random.chance(ONE_IN_LONG) {
            return LONGEST.saturating_sub(used) + 8 + self.random.below(LONGER);
        }
        self.random.pick(&ENOUGH).unwrap_or(8).into()
    }

    /// A valid vocabulary of so many records, with a random chain.
    pub fn vocabulary(&mut self, count: usize) -> Draft {
        let roles = self.random.pick(&[1, 2, 5, 64]).unwrap_or(1);
        let mut draft = Draft::random(roles, count, &mut self.random);
        draft.chain_random(&mut self.random);
        draft
    }

    /// A record of any kind that may be added to a draft.
    pub fn valid_record(&mut self, draft: &Draft) -> Record {
        let kind = 1 + self.random.below(9) as u8;
        let record = draft.valid(kind, &mut self.random);
        record.unwrap_or(Record::new(1, 0, 0, 0))
    }
}
