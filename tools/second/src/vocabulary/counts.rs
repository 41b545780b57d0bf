//! Vocabularies of both editions: k right and wrong, headers that are of neither, and faults of other rows beside a wrong
//! k. Other subjects try their calls on the samples of these.

use crate::cases::with_byte;
use crate::random::Random;
use crate::vocabulary::call::Refusal;
use crate::vocabulary::draft::Draft;
use crate::vocabulary::editions::{count, holding, second, with_header, wrong_counts};
use crate::vocabulary::faults::{push_fault, wrong_nexts};
use crate::vocabulary::plan::{refused, Plan};
use crate::vocabulary::records::{Record, EDITION_1, RECORD_BYTES};

/// A vocabulary, and what the vocabulary check answers to it.
pub type Sample = (Vec<u8>, Result<usize, Refusal>);

/// Record counts of the samples: all kinds are among the first ten records after the header.
const COUNTS: [usize; 5] = [11, 12, 15, 19, 26];
/// Their role count.
const ROLES: u16 = 5;
/// Numbers of atoms of the long samples, of which some are names alone.
const LONG: [u16; 4] = [255, 256, 300, 511];
/// Where the kind stands in a header.
const KIND: usize = 0;
/// Where the low byte of the role count stands in it.
const ROLE_COUNT: usize = 4;

/// A refusal as the answer.
fn refusal(number: u8, place: usize) -> Result<usize, Refusal> {
    Err(Refusal { number, place })
}

/// Short vocabularies of both editions that are accepted or that rows 2 to 8 or 28 refuse.
pub fn edition_samples(random: &mut Random) -> Vec<Sample> {
    let mut samples = Vec::new();
    for count in COUNTS {
        let mut draft = Draft::random(ROLES, count, random);
        draft.chain_random(random);
        samples.push((second(&draft.bytes()), Ok(count)));
        samples.extend(wrongly_counted(&draft));
        samples.extend(wrong_headers(&draft, random));
        for row in [3, 4, 5, 6, 7, 8, 8] {
            let counted = beside_a_wrong_count(row, count, random);
            samples.extend(counted.into_iter().take(1 + random.below(2)));
        }
    }
    samples
}

/// A vocabulary of edition 2 with each wrong k.
fn wrongly_counted(draft: &Draft) -> Vec<Sample> {
    let k = count(&draft.records);
    let held = wrong_counts(&draft.records).into_iter();
    held.map(|held| (holding(&draft.bytes(), held), refusal(28, k)))
        .collect()
}

/// Headers of no edition, of edition 1 with a next, and of edition 2 with a wrong kind or role count; k is right, or
/// wrong too.
fn wrong_headers(draft: &Draft, random: &mut Random) -> Vec<Sample> {
    let vocabulary = draft.bytes();
    let k = count(&draft.records) as u16;
    let nexts = [
        (EDITION_1, [k, 1]),
        (EDITION_1, [k + 1, u16::MAX]),
        (0, [0, k]),
        (3, [0, k]),
        (255, [0, k]),
    ];
    let mut wrong: Vec<Vec<u8>> = Vec::new();
    for (byte, nexts) in nexts {
        wrong.extend(nexts.map(|next| with_header(&vocabulary, byte, next)));
    }
    for (place, value) in [(KIND, 15), (ROLE_COUNT, 65)] {
        let held = random.pick(&wrong_counts(&draft.records)).unwrap_or(0);
        for counted in [second(&vocabulary), holding(&vocabulary, held)] {
            wrong.push(with_byte(&counted, place, value));
        }
    }
    wrong.into_iter().map(|bytes| (bytes, refusal(2, 0))).collect()
}

/// A vocabulary that a row from 3 to 8 refuses, in edition 2: with a wrong k, and with the right one.
fn beside_a_wrong_count(row: u8, count: usize, random: &mut Random) -> [Sample; 2] {
    let mut draft = Draft::random(ROLES, 3 + random.below(count - 4), random);
    let mut place = draft.records.len();
    if row < 8 {
        push_fault(row, &mut draft, count, random);
        draft.grow(count, random);
    } else {
        draft.grow(count, random);
        place = random.pick(&[0, 2, 7]).unwrap_or(0);
        let next = random.pick(&wrong_nexts(&draft, place)).unwrap_or(1);
        draft.link(place, next);
    }
    let held = random.pick(&wrong_counts(&draft.records)).unwrap_or(0);
    let vocabulary = draft.bytes();
    [holding(&vocabulary, held), second(&vocabulary)].map(|bytes| (bytes, refusal(row, place)))
}

/// A vocabulary with so many atoms: names, or restrictions too.
fn with_atoms(atoms: u16, names_alone: bool) -> Draft {
    let mut draft = Draft::new(ROLES);
    for label in 0..atoms {
        draft.records.push(match label % 3 {
            1 if !names_alone => Record::new(7, label % ROLES, label, 0),
            2 if !names_alone => Record::new(8, label % ROLES, label, 0),
            _ => Record::new(3, label, 0, 0),
        });
    }
    draft
}

/// Vocabularies with as many atoms as take two bytes, or nearly, with k right and wrong.
pub fn long_samples(random: &mut Random) -> Vec<Sample> {
    let mut samples = Vec::new();
    for atoms in LONG {
        let draft = with_atoms(atoms, random.chance(2));
        samples.push((second(&draft.bytes()), Ok(draft.records.len())));
        samples.extend(some_wrong(&draft, 3, random));
    }
    samples
}

/// A vocabulary of edition 2 with some wrong k's.
fn some_wrong(draft: &Draft, most: usize, random: &mut Random) -> Vec<Sample> {
    let mut wrong = wrongly_counted(draft);
    random.shuffle(&mut wrong);
    wrong.truncate(most);
    wrong
}

impl Plan {
    /// All vocabularies of both editions.
    pub fn editions(&mut self) {
        self.lone_headers();
        let samples = [edition_samples(&mut self.random), long_samples(&mut self.random)].concat();
        self.add_samples(samples);
        self.numbers_of_atoms();
        self.right_counts();
        self.counted_chains();
        self.damaged_headers();
        self.record_calls_by_count();
    }

    /// Adds samples for their answers.
    fn add_samples(&mut self, samples: Vec<Sample>) {
        for (vocabulary, answer) in samples {
            self.add(vocabulary, Some(answer));
        }
    }

    /// Headers alone, with role counts around the limits and with numbers for k.
    fn lone_headers(&mut self) {
        for roles in [0, 1, 2, 63, 64, 65, 66, 256, u16::MAX] {
            for held in [0, 1, 256, u16::MAX] {
                let header = Draft::new(roles).bytes();
                let answer = match (roles, held) {
                    (65.., _) => refusal(2, 0),
                    (_, 0) => Ok(1),
                    _ => refusal(28, 0),
                };
                self.add(holding(&header, held), Some(answer));
            }
        }
    }

    /// Each small number of atoms and some large ones, of names alone and of all kinds, with k right and wrong.
    fn numbers_of_atoms(&mut self) {
        for atoms in (0..=15).chain([64, 127, 128, 200, 257, 400, 510]) {
            for names_alone in [true, false] {
                let draft = with_atoms(atoms, names_alone);
                self.add(second(&draft.bytes()), Some(Ok(draft.records.len())));
                let wrong = some_wrong(&draft, 1, &mut self.random);
                self.add_samples(wrong);
            }
        }
    }

    /// Random vocabularies of edition 2, some of them with a wrong k.
    fn right_counts(&mut self) {
        for size in (1..=60).step_by(2) {
            let draft = self.vocabulary(size);
            self.add(second(&draft.bytes()), Some(Ok(size)));
            let wrong = some_wrong(&draft, 1, &mut self.random);
            self.add_samples(wrong);
        }
    }

    /// Row 8 beside a wrong k, at the header and at each statement.
    fn counted_chains(&mut self) {
        let draft = self.vocabulary(20);
        let holders = draft.statements().into_iter().map(usize::from);
        for holder in std::iter::once(0).chain(holders) {
            for next in wrong_nexts(&draft, holder).into_iter().take(3) {
                let mut wrong = draft.clone();
                wrong.link(holder, next);
                let held = self.random.pick(&wrong_counts(&draft.records)).unwrap_or(0);
                self.add(holding(&wrong.bytes(), held), refused(8, holder));
            }
        }
    }

    /// A vocabulary of edition 2 with each byte of its header damaged, and others with any byte.
    fn damaged_headers(&mut self) {
        let bytes = second(&self.vocabulary(13).bytes());
        for (place, byte) in bytes.iter().take(RECORD_BYTES).enumerate() {
            for value in [byte ^ 1, byte.wrapping_add(1), byte.wrapping_sub(1), 0, 255] {
                self.add(with_byte(&bytes, place, value), None);
            }
        }
        for _ in 0..60 {
            let count = 2 + self.random.below(30);
            let mut bytes = second(&self.vocabulary(count).bytes());
            self.damage(&mut bytes);
            self.add(bytes, None);
        }
    }

    /// The record call at the edge numbers, on vocabularies with a wrong k and with the right one.
    fn record_calls_by_count(&mut self) {
        for count in [1, 9, 40, 512] {
            let draft = self.vocabulary(count);
            let held = self.random.pick(&wrong_counts(&draft.records)).unwrap_or(0);
            self.add_edges(holding(&draft.bytes(), held));
        }
        let bytes = second(&self.vocabulary(9).bytes());
        self.add_edges(bytes);
    }
}
