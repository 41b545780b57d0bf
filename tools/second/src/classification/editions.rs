//! Classifications of vocabularies of edition 2: those that have a case in edition 1 already, whose line they have, and
//! wrong k's, beside other refusals too.

use crate::classification::file::Case;
use crate::classification::plan::{Meant, Plan, Planned};
use crate::classification::print::{line, run};
use crate::comparison::atoms;
use crate::plan::{some_of_each, sort_of};
use crate::vocabulary::editions::second;
use crate::vocabulary::records::records;
use crate::vocabulary::told::Late;
use crate::vocabulary::{check_vocabulary, edition_samples, long_samples};

/// How many earlier cases of each sort are classified in edition 2 too.
const OF_EACH: usize = 55;
/// The most atoms of those that are not refused, for their time.
pub const MOST_ATOMS: usize = 8;
/// How many wrong k's go with each mixture of other refusals.
const WRONG_COUNTS: usize = 4;

/// Classifications that ask row 28 after rows of their own.
pub const LATE: [Late; 4] = [
    ("11 before 28", &[11]),
    ("12 before 28", &[12]),
    ("26 before 28", &[26]),
    ("28 after all other rows", &[11, 12, 26]),
];

/// The sort of an earlier case: that of its line, or that it is made for a table.
fn sort(planned: &Planned) -> String {
    match &planned.meant {
        Meant::Line(line) => sort_of(line),
        Meant::Table(_) => "table".to_string(),
    }
}

impl Plan {
    /// All classifications of edition 2.
    pub fn editions(&mut self) {
        self.in_edition_2();
        for atoms in [4, 12, 13, 20] {
            for short in 0..4 {
                self.counted_mixture(0, atoms, short);
                for _ in 0..WRONG_COUNTS {
                    self.counted_mixture(28, atoms, short);
                }
            }
        }
        for row in 1..=8 {
            for (atoms, short) in [(4, 0), (12, 3), (13, 0), (20, 3)] {
                self.counted_mixture(row, atoms, short);
            }
        }
        let samples = [edition_samples(&mut self.random), long_samples(&mut self.random)].concat();
        for (vocabulary, _) in samples {
            self.with_any_lent(&vocabulary);
        }
    }

    /// Earlier cases of each sort in edition 2, for the lines that they have in edition 1.
    fn in_edition_2(&mut self) {
        let accepted = self.cases.iter().filter(|planned| {
            let few = atoms(&records(&planned.case.vocabulary)).len() <= MOST_ATOMS;
            (few || sort(planned).starts_with("refused")) && check_vocabulary(&planned.case.vocabulary).is_ok()
        });
        let sorted = accepted.map(|planned| (sort(planned), planned.case.clone()));
        for case in some_of_each(sorted, OF_EACH, &mut self.random) {
            let meant = Meant::Line(line(&run(&case)));
            let vocabulary = second(&case.vocabulary);
            let case = Case { vocabulary, ..case };
            self.cases.push(Planned { case, meant });
        }
    }
}
