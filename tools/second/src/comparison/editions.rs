//! Comparisons over vocabularies of edition 2: those that have a case in edition 1 already, whose line they have, and
//! wrong k's, beside other refusals too.

use crate::comparison::file::Case;
use crate::comparison::plan::Plan;
use crate::comparison::print::{line, run};
use crate::comparison::refused::{sound, spoil_count};
use crate::comparison::samples::{mixed_atoms, name_atoms};
use crate::comparison::types::atoms;
use crate::plan::{some_of_each, sort_of};
use crate::vocabulary::editions::{count, second};
use crate::vocabulary::records::records;
use crate::vocabulary::told::Late;
use crate::vocabulary::{check_vocabulary, edition_samples, long_samples};

/// How many earlier cases of each sort are compared in edition 2 too.
const OF_EACH: usize = 45;
/// The most atoms of those that are not refused, for their time.
pub const MOST_ATOMS: usize = 8;
/// How many wrong k's go with each mixture of other refusals.
const WRONG_COUNTS: usize = 2;

/// Comparisons that ask row 28 after rows of their own.
pub const LATE: [Late; 4] = [
    ("10 before 28", &[10]),
    ("11 before 28", &[11]),
    ("12 before 28", &[12]),
    ("28 after all other rows", &[10, 11, 12]),
];

impl Plan {
    /// All comparisons over edition 2.
    pub fn editions(&mut self) {
        self.in_edition_2();
        self.counted_atoms();
        for atoms in [4, 12, 13, 20] {
            for wrong in 0..8 {
                self.query_mixture((second(&sound(atoms)), 0), 0, atoms, wrong);
                for _ in 0..WRONG_COUNTS {
                    self.counted_mixture(28, atoms, wrong);
                }
            }
        }
        for row in 1..=8 {
            for (atoms, wrong) in [(4, 0), (12, 7), (13, 0), (20, 7)] {
                self.counted_mixture(row, atoms, wrong);
            }
        }
        let samples = [edition_samples(&mut self.random), long_samples(&mut self.random)].concat();
        for (vocabulary, _) in samples {
            self.any_query(&vocabulary);
        }
    }

    /// A mixture over a vocabulary of edition 2 that holds a wrong k.
    fn counted_mixture(&mut self, row: u8, atoms: usize, wrong: usize) {
        let spoiled = spoil_count(row, &sound(atoms), &mut self.random);
        self.query_mixture(spoiled, row, atoms, wrong);
    }

    /// Earlier cases of each sort in edition 2, for the lines that they have in edition 1.
    fn in_edition_2(&mut self) {
        let accepted = self.cases.iter().filter(|planned| {
            let few = atoms(&records(&planned.case.vocabulary)).len() <= MOST_ATOMS;
            (few || planned.meant.starts_with("refused")) && check_vocabulary(&planned.case.vocabulary).is_ok()
        });
        let sorted = accepted.map(|planned| (sort_of(&planned.meant), planned.case.clone()));
        for case in some_of_each(sorted, OF_EACH, &mut self.random) {
            let meant = line(&run(&case));
            let vocabulary = second(&case.vocabulary);
            self.push(Case { vocabulary, ..case }, &meant);
        }
    }

    /// 12 atoms compare, 13 give 11, in edition 2 too.
    fn counted_atoms(&mut self) {
        for make in [name_atoms, mixed_atoms] {
            for k in [1, 2, 11, 12, 13, 14, 255, 256, 300, 511] {
                let vocabulary = second(&make(k).bytes());
                let last = count(&records(&vocabulary)) as u32;
                let meant = match k {
                    1..=12 => "equal ".to_string(),
                    _ => format!("refused 11 {k} "),
                };
                self.add(&vocabulary, last, last, &meant);
            }
        }
    }
}
