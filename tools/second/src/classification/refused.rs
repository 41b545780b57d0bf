//! The refusals of the classification: each alone, and mixtures of them, of which the first in order is given.

use crate::cases::beginning;
use crate::classification::plan::Plan;
use crate::comparison::{sound, spoil, spoil_count, vocabulary, Terms};
use crate::random::Seed;
use crate::vocabulary;
use crate::vocabulary::editions::second;
use crate::vocabulary::{check_vocabulary, refused_before};

/// One in so many refused cases of the vocabulary check is classified too: of short ones, and of long ones.
const ONE_IN: [usize; 2] = [8, 12];
/// The longest of the short ones, in bytes.
const SHORT: usize = 400;

/// Numbers of atoms around the limit and far from it.
const ATOMS: [usize; 8] = [1, 3, 5, 8, 12, 13, 14, 100];
/// How many random vocabularies have each of these numbers.
const OF_EACH: usize = 30;

/// Numbers of bytes that are too few for the survivors, and for the taxonomy.
const TOO_FEW: [[u16; 4]; 2] = [[0, 144, 500, 511], [0, 1, 100, 143]];

/// How the line begins for an accepted vocabulary.
fn line_of(atoms: usize, [survivors, taxonomy]: [u16; 2]) -> String {
    match atoms {
        13.. => format!("refused 11 {atoms} "),
        _ if survivors < 512 => "refused 12 0 ".to_string(),
        _ if taxonomy < 144 => "refused 26 0 ".to_string(),
        _ => "counts ".to_string(),
    }
}

impl Plan {
    /// All refusals. The mixtures are much the same in every run: with a seed of its own a run has random vocabularies
    /// and numbers of lent bytes too.
    pub fn refusals(&mut self, seed: Seed) {
        let mut terms = Terms::new(0);
        terms.name_list(512);
        let bytes = terms.bytes();
        for length in [0, 1, 7, 9, 4088 + 7, 4096 + 1, 4096 + 8] {
            let lent = self.any_lent();
            self.add_lent(&beginning(&bytes, length), lent, "refused 1 0 ");
        }
        for row in 0..=8 {
            for atoms in [4, 12, 13, 20] {
                for short in 0..4 {
                    self.mixture(row, atoms, short);
                }
            }
        }
        self.refused_vocabularies(seed);
        if seed.is_some() {
            self.random_lent();
        }
    }

    /// Numbers of lent bytes around the limits and elsewhere.
    fn any_lent(&mut self) -> [u16; 2] {
        [511, 143].map(|limit| {
            let any = self.random.below(1025) as u16;
            let near = [0, limit, limit + 1, limit + 2, any, any];
            self.random.pick(&near).unwrap_or(0)
        })
    }

    /// A vocabulary that a row refuses (none for 0), and, by the bits of `short`, too few bytes lent for either.
    fn mixture(&mut self, row: u8, atoms: usize, short: usize) {
        let lent = self.mixed_lent(short);
        let vocabulary = sound(atoms);
        let (bytes, meant) = match row {
            0 => (vocabulary, line_of(atoms, lent)),
            _ => {
                let (spoiled, place) = spoil(row, &vocabulary);
                (spoiled, format!("refused {row} {place} "))
            }
        };
        self.add_lent(&bytes, lent, &meant);
    }

    /// A vocabulary in edition 2 with the right k, or with a wrong one that a row refuses (28, or another that comes
    /// before it), and too few bytes lent for either.
    pub fn counted_mixture(&mut self, row: u8, atoms: usize, short: usize) {
        let lent = self.mixed_lent(short);
        let vocabulary = sound(atoms);
        let (bytes, meant) = match row {
            0 => (second(&vocabulary), line_of(atoms, lent)),
            _ => {
                let (spoiled, place) = spoil_count(row, &vocabulary, &mut self.random);
                (spoiled, format!("refused {row} {place} "))
            }
        };
        self.add_lent(&bytes, lent, &meant);
    }

    /// By the bits of `short` too few bytes lent for the survivors, and for the taxonomy.
    fn mixed_lent(&mut self, short: usize) -> [u16; 2] {
        let [few, too_few] = TOO_FEW.map(|lengths| self.random.pick(&lengths).unwrap_or(0));
        [
            if short & 1 == 1 { few } else { 520 },
            if short & 2 == 2 { too_few } else { 150 },
        ]
    }

    /// Some of the vocabularies that the vocabulary check refuses.
    fn refused_vocabularies(&mut self, seed: Seed) {
        for planned in vocabulary::earlier(seed) {
            let bytes = planned.case.vocabulary;
            if refused_before(&bytes).is_none() {
                continue;
            }
            let [of_short, of_long] = ONE_IN;
            if self
                .random
                .chance(if bytes.len() <= SHORT { of_short } else { of_long })
            {
                self.with_any_lent(&bytes);
            }
        }
    }

    /// A vocabulary, which may be refused, with any numbers of lent bytes.
    pub fn with_any_lent(&mut self, bytes: &[u8]) {
        let lent = self.any_lent();
        let meant = match check_vocabulary(bytes) {
            Err(refusal) => format!("refused {} {} ", refusal.number, refusal.place),
            Ok(_) => String::new(),
        };
        self.add_lent(bytes, lent, &meant);
    }

    /// Random vocabularies with too many atoms or few enough, bytes enough or too few.
    fn random_lent(&mut self) {
        for atoms in ATOMS {
            for _ in 0..OF_EACH {
                let draft = vocabulary(atoms, &mut self.random);
                let lent = self.any_lent();
                self.add_lent(&draft.bytes(), lent, &line_of(atoms, lent));
            }
        }
    }
}
