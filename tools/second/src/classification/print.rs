//! The expected output: a line for each case with the answer, what was written into each buffer, and two sums over all
//! bytes of each.

use crate::classification::call::{classify, Classified};
use crate::classification::file::Case;
use crate::classification::taxonomy::TABLE_BYTES;
use crate::comparison::WRITTEN;
use crate::lent::{hex, sums};
use crate::vocabulary::Refusal;

/// What the classification does with a case.
#[derive(Clone, Debug, PartialEq, Eq)]
pub struct Outcome {
    /// The answer.
    pub answer: Result<Classified, Refusal>,
    /// The bytes lent for the survivors, and those for the taxonomy, after the call.
    pub buffers: [Vec<u8>; 2],
}

/// Runs a case.
pub fn run(case: &Case) -> Outcome {
    let [mut survivors, mut taxonomy] = case.buffers();
    Outcome {
        answer: classify(&case.vocabulary, &mut survivors, &mut taxonomy),
        buffers: [survivors, taxonomy],
    }
}

/// The expected output for cases.
pub fn lines(cases: &[Case]) -> String {
    cases.iter().map(|case| line(&run(case))).collect()
}

/// The line of a case, with its line end.
pub fn line(outcome: &Outcome) -> String {
    let [survivors, taxonomy] = &outcome.buffers;
    let text = match &outcome.answer {
        Err(refusal) => format!("refused {} {}", refusal.number, refusal.place),
        Ok(classified) => {
            let counts = format!("{} {}", classified.survivors.len(), classified.rounds);
            let written = format!("{} {}", hex(survivors, WRITTEN), hex(taxonomy, TABLE_BYTES));
            format!("counts {counts} {written}")
        }
    };
    format!("{text} {} {}\n", sums(survivors), sums(taxonomy))
}
