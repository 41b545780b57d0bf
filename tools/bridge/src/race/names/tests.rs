//! The rows of the table show the worst vocabulary.

use super::by_atoms;
use crate::making::Making;
use crate::question::Question;
use crate::race::{Entry, Times};
use base::vocabulary::Saying;

/// A vocabulary of six names.
fn entry() -> Entry {
    let mut making = Making::new(0);
    for label in 0..6 {
        making.put(Saying::Name(label));
    }
    Entry {
        stem: "six".into(),
        question: Question::new(making.vocabulary, 1, 2),
    }
}

fn times(figures: &[f64]) -> Times {
    Times {
        figures: figures.to_vec(),
        ..Times::default()
    }
}

#[test]
fn a_row_has_the_least_ratio_of_a_vocabulary_beside_the_usual_one() {
    let entries = [entry(), entry(), entry()];
    let sides = [
        vec![times(&[2.0, 9.0, 1.0]), times(&[6.0]), times(&[60.0])],
        vec![times(&[1.0]), times(&[4.0]), times(&[20.0])],
        vec![times(&[4.0]), times(&[2.0]), times(&[100.0])],
    ];
    let table = by_atoms(&entries, &sides);
    let row = "| 6 | 3 | 6 | 7 | 2.00 | 4.00 | 3.0 | 0.5 **missed** | 60.00 | 25.0 | 20.0 |";
    assert_eq!(table.lines().skip(2).collect::<Vec<_>>(), [row], "{table}");
}
