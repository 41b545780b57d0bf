//! The expected output: a line for each case with the answer, what was written, and two sums over
//! all of the lent bytes.

use crate::comparison::call::{compare, Compared, WRITTEN};
use crate::comparison::file::Case;
use crate::lent::{hex, sums};
use crate::vocabulary::Refusal;

/// What the comparison does with a case.
pub struct Outcome {
    /// The answer.
    pub answer: Result<Compared, Refusal>,
    /// The lent bytes after the call.
    pub buffer: Vec<u8>,
}

/// Runs a case.
pub fn run(case: &Case) -> Outcome {
    let mut buffer = case.buffer();
    Outcome {
        answer: compare(&case.vocabulary, case.a, case.b, &mut buffer),
        buffer,
    }
}

/// The expected output for cases.
pub fn lines(cases: &[Case]) -> String {
    cases.iter().map(|case| line(&run(case))).collect()
}

/// The line of a case, with its line end.
pub fn line(outcome: &Outcome) -> String {
    let buffer = &outcome.buffer;
    let text = match &outcome.answer {
        Err(refusal) => format!("refused {} {}", refusal.number, refusal.place),
        Ok(compared) => format!("{} {}", head(compared), hex(buffer, WRITTEN)),
    };
    format!("{text} {}\n", sums(buffer))
}

/// The answer's word, the element that Different carries, and the two counts.
fn head(compared: &Compared) -> String {
    let counts = format!("{} {}", compared.survivors.len(), compared.rounds);
    match compared.element {
        None => format!("equal {counts}"),
        Some(element) => format!("different {element} {counts}"),
    }
}
