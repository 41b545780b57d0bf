//! Scripts over vocabularies of edition 2: those that have a case in edition 1 already, whose line they have, and wrong
//! k's, beside each other refusal too.

use crate::comparison::{sound, spoil_count};
use crate::plan::{some_of_each, sort_of};
use crate::script::call::check_script;
use crate::script::file::{line, Case};
use crate::script::plan::{refused, Plan};
use crate::vocabulary::editions::{count, holding, second, wrong_counts};
use crate::vocabulary::records::records;
use crate::vocabulary::told::Late;
use crate::vocabulary::{check_vocabulary, edition_samples, long_samples};

/// How many earlier cases of each sort are checked in edition 2 too, and how many of these with a wrong k.
const OF_EACH: [usize; 2] = [12, 6];
/// The longest vocabularies and scripts of these, in bytes.
const LONGEST: usize = 1200;

/// Script checks that ask row 28 after rows of their own.
pub const LATE: [Late; 6] = [
    ("13 before 28", &[13]),
    ("14 before 28", &[14]),
    ("10 before 28", &[10]),
    ("15 to 19 before 28", &[15, 16, 17, 18, 19]),
    ("20 to 25 before 28", &[20, 21, 22, 23, 24, 25]),
    (
        "28 asked of accepted scripts alone",
        &[10, 13, 14, 15, 16, 17, 18, 19, 20, 21, 22, 23, 24, 25],
    ),
];

/// The sort of a line; of an accepted script by how many digits its steps take, and whether they are few.
fn sort(line: &str) -> String {
    match line.strip_prefix("accepted ") {
        Some(steps) => format!("accepted {} {}", steps.len(), steps < "4"),
        None => sort_of(line),
    }
}

impl Plan {
    /// All scripts over edition 2.
    pub fn editions(&mut self) {
        self.in_edition_2();
        let bases = self.bases.clone();
        for row in [1, 2, 3, 4, 5, 6, 7, 8, 28] {
            for atoms in [4, 13] {
                let (vocabulary, _) = spoil_count(row, &sound(atoms), &mut self.random);
                self.with_a_beginning(&vocabulary, &bases);
            }
        }
        let samples = [edition_samples(&mut self.random), long_samples(&mut self.random)].concat();
        for (vocabulary, _) in samples {
            self.with_a_beginning(&vocabulary, &bases);
        }
    }

    /// Earlier cases of each sort in edition 2, for the lines that they have in edition 1; and some with a wrong k.
    fn in_edition_2(&mut self) {
        let [right, wrong] = OF_EACH;
        for case in self.earlier(right) {
            let meant = line(check_script(&case.vocabulary, &case.script));
            self.add(&second(&case.vocabulary), case.script, &meant);
        }
        for case in self.earlier(wrong) {
            let all = records(&case.vocabulary);
            let held = self.random.pick(&wrong_counts(&all)).unwrap_or(0);
            self.add(&holding(&case.vocabulary, held), case.script, &refused(28, count(&all)));
        }
    }

    /// Up to so many short cases of each sort whose vocabularies are accepted.
    fn earlier(&mut self, most: usize) -> Vec<Case> {
        let short = self.cases.iter().filter(|planned| {
            let Case { vocabulary, script } = &planned.case;
            vocabulary.len() <= LONGEST && script.len() <= LONGEST && check_vocabulary(vocabulary).is_ok()
        });
        let sorted = short.map(|planned| (sort(&planned.meant), planned.case.clone()));
        some_of_each(sorted, most, &mut self.random)
    }
}
