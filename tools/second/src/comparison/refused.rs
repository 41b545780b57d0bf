//! The refusals of the comparison: each alone, and all mixtures of them, of which the first in table
//! order is given.

use crate::cases::{beginning, with_byte};
use crate::comparison::plan::Plan;
use crate::comparison::random::vocabulary;
use crate::comparison::terms::Terms;
use crate::random::{Random, Seed};
use crate::vocabulary;
use crate::vocabulary::editions::{count, holding, wrong_counts};
use crate::vocabulary::records::{records, Record, RECORD_BYTES};
use crate::vocabulary::{check_vocabulary, refused_before, Draft};

/// One in so many refused cases of the vocabulary check is compared too.
const ONE_IN: usize = 9;
/// The longest of them, in bytes.
const LONGEST: usize = 300;

/// Numbers of atoms around the limit and far from it.
const ATOMS: [usize; 8] = [1, 5, 12, 13, 14, 20, 100, 300];
/// How many random vocabularies have each of these numbers.
const OF_EACH: usize = 20;

/// The vocabulary that is spoiled, with four atoms or more: names, a restriction of each kind and statements.
pub fn sound(atoms: usize) -> Vec<u8> {
    let mut terms = Terms::new(3);
    let [first, second] = terms.names();
    terms.name_list(atoms - 4);
    let some = terms.some(0, first);
    let all = terms.all(2, some);
    terms.aside(all, some);
    terms.within(second, all);
    terms.bytes()
}

/// A sound vocabulary with one byte changed, or for row 1 added, so that a row of the table refuses
/// it, and the place of the refusal: the header, a name, the some-record or the last statement.
pub fn spoil(row: u8, vocabulary: &[u8]) -> (Vec<u8>, usize) {
    if row == 1 {
        return ([vocabulary, &[0]].concat(), 0);
    }
    let last = vocabulary.len() / RECORD_BYTES - 1;
    let some = last - 3;
    let (place, byte, value) = match row {
        2 => (0, 0, 15),
        3 => (2, 0, 10),
        4 => (2, 7, 1),
        5 => (some, 4, 0),
        6 => (some, 2, 3),
        7 => (2, 2, 1),
        _ => (last, 6, 1),
    };
    (with_byte(vocabulary, RECORD_BYTES * place + byte, value), place)
}

/// A sound vocabulary in edition 2 that holds a wrong k and that a row refuses, which is 28, or spoiled as well; and the
/// place of the refusal.
pub fn spoil_count(row: u8, vocabulary: &[u8], random: &mut Random) -> (Vec<u8>, usize) {
    let all = records(vocabulary);
    let held = random.pick(&wrong_counts(&all)).unwrap_or(0);
    let (bytes, place) = match row {
        28 => (vocabulary.to_vec(), count(&all)),
        _ => spoil(row, vocabulary),
    };
    (holding(&bytes, held), place)
}

/// Numbers that are no term of a vocabulary: header, statements, past the end, and numbers whose low
/// bytes are those of a term.
fn no_terms(records: &[Record]) -> Vec<u32> {
    let count = records.len() as u32;
    let mut numbers = vec![0, count, count + 1, 511, 512, 65535, 65536, 65537];
    numbers.extend([256 + 1, 0x0100_0001, 0x8000_0001, u32::MAX - 1, u32::MAX]);
    let statements = (0..count).zip(records).filter(|(_, r)| r.is_statement());
    numbers.extend(statements.map(|(number, _)| number));
    numbers.retain(|n| !records.get(*n as usize).is_some_and(Record::is_term));
    numbers
}

/// How the line begins for a query of a vocabulary that the vocabulary check accepts, where it is
/// refused.
fn refused_query(draft: &Draft, atoms: usize, [a, b]: [u32; 2], lent: u16) -> String {
    let is_term = |n: &u32| draft.records.get(*n as usize).is_some_and(Record::is_term);
    match [a, b].into_iter().find(|n| !is_term(n)) {
        Some(number) => format!("refused 10 {number} "),
        None if atoms > 12 => format!("refused 11 {atoms} "),
        None if lent < 512 => "refused 12 0 ".to_string(),
        None => String::new(),
    }
}

impl Plan {
    /// All refusals. The mixtures are much the same in every run: with a seed of its own a run has
    /// random queries too.
    pub fn refusals(&mut self, seed: Seed) {
        self.wrong_lengths();
        self.wrong_queries();
        for row in 0..=8 {
            for atoms in [4, 12, 13, 20] {
                for wrong in 0..8 {
                    self.mixture(row, atoms, wrong);
                }
            }
        }
        self.refused_vocabularies(seed);
        if seed.is_some() {
            self.random_queries();
        }
    }

    /// Random vocabularies with too many atoms or few enough, terms or none, bytes enough or too few.
    fn random_queries(&mut self) {
        for atoms in ATOMS {
            for _ in 0..OF_EACH {
                let draft = vocabulary(atoms, &mut self.random);
                let numbers = draft.records.len() + 1;
                let query = [0, 1].map(|_| self.random.below(numbers) as u32);
                let any = self.random.below(1024) as u16;
                let lent = self.random.pick(&[0, 511, 511, 512, any, any]).unwrap_or(0);
                let meant = refused_query(&draft, atoms, query, lent);
                self.add_lent(&draft.bytes(), query, lent, &meant);
            }
        }
    }

    /// Row 1 next to the limits.
    fn wrong_lengths(&mut self) {
        let mut terms = Terms::new(0);
        terms.name_list(512);
        let bytes = terms.bytes();
        for length in [0, 1, 7, 9, 4088 + 7, 4096 + 1, 4096 + 8] {
            self.add(&beginning(&bytes, length), 1, 2, "refused 1 0 ");
        }
    }

    /// Row 10: every number that is no term as A, as B, and as both with different ones.
    fn wrong_queries(&mut self) {
        let vocabulary = sound(5);
        let wrong = no_terms(&records(&vocabulary));
        for (number, other) in wrong.iter().zip(wrong.iter().cycle().skip(1)) {
            let refused = format!("refused 10 {number} ");
            self.add(&vocabulary, *number, 2, &refused);
            self.add(&vocabulary, 2, *number, &refused);
            self.add(&vocabulary, *number, *other, &refused);
            self.add_lent(&vocabulary, [*number, *number], 0, &refused);
        }
    }

    /// A vocabulary that a row refuses (none for 0), and, by the bits of `wrong`, a wrong A, a wrong
    /// B, and too few bytes lent.
    fn mixture(&mut self, row: u8, atoms: usize, wrong: usize) {
        let vocabulary = sound(atoms);
        let spoiled = match row {
            0 => (vocabulary, 0),
            _ => spoil(row, &vocabulary),
        };
        self.query_mixture(spoiled, row, atoms, wrong);
    }

    /// The same with the vocabulary given, and the place of its refusal.
    pub fn query_mixture(&mut self, (bytes, place): (Vec<u8>, usize), row: u8, atoms: usize, wrong: usize) {
        let bad = no_terms(&records(&sound(atoms)));
        let mut pick = |bit: usize, good: u32| match wrong >> bit & 1 {
            1 => self.random.pick(&bad).unwrap_or(0),
            _ => good,
        };
        let (a, b) = (pick(0, 1), pick(1, 2));
        let short = self.random.pick(&[0, 100, 511]).unwrap_or(0);
        let lent = if wrong >> 2 & 1 == 1 { short } else { 520 };
        let meant = match (row, wrong & 3) {
            (1.., _) => format!("refused {row} {place} "),
            (0, 2) => format!("refused 10 {b} "),
            (0, 1 | 3) => format!("refused 10 {a} "),
            _ if atoms > 12 => format!("refused 11 {atoms} "),
            _ if lent < 512 => "refused 12 0 ".to_string(),
            _ => "different 1 ".to_string(),
        };
        self.add_lent(&bytes, [a, b], lent, &meant);
    }

    /// Some of the vocabularies that the vocabulary check refuses, with random queries.
    fn refused_vocabularies(&mut self, seed: Seed) {
        for planned in vocabulary::earlier(seed) {
            let vocabulary = planned.case.vocabulary;
            let short = vocabulary.len() <= LONGEST;
            if short && self.random.chance(ONE_IN) && refused_before(&vocabulary).is_some() {
                self.any_query(&vocabulary);
            }
        }
    }

    /// A vocabulary, which may be refused, with a random query.
    pub fn any_query(&mut self, vocabulary: &[u8]) {
        let [a, b] = [0, 1].map(|_| self.random.below(6) as u32);
        let lent = self.random.pick(&[0, 511, 512, 600]).unwrap_or(0);
        let meant = match check_vocabulary(vocabulary) {
            Err(refusal) => format!("refused {} {} ", refusal.number, refusal.place),
            Ok(_) => String::new(),
        };
        self.add_lent(vocabulary, [a, b], lent, &meant);
    }
}
