//! The three calls: making an empty vocabulary, adding a term, adding a statement.

use crate::writer::file::{Call, Case};
use crate::writer::rules::{Answer, Paper, Rules};

/// What a writer does with a case.
#[derive(Clone, Debug, PartialEq, Eq)]
pub struct Outcome {
    /// The answer.
    pub answer: Answer,
    /// The lent bytes after the call.
    pub buffer: Vec<u8>,
}

/// Makes a call in a buffer, as the paper says.
pub fn write(buffer: &mut [u8], used: u64, call: Call) -> Answer {
    write_by(&Paper, buffer, used, call)
}

/// Makes a call in a buffer, by the rules of a writer.
fn write_by(rules: &(impl Rules + ?Sized), buffer: &mut [u8], used: u64, call: Call) -> Answer {
    match call {
        Call::Make { roles } => rules.make(buffer, roles),
        Call::Term { .. } | Call::Statement { .. } => rules.add(buffer, used, call),
    }
}

/// Runs a case.
pub fn run(case: &Case) -> Outcome {
    run_by(&Paper, case)
}

/// Runs a case by the rules of a writer.
pub fn run_by(rules: &(impl Rules + ?Sized), case: &Case) -> Outcome {
    let mut buffer = case.buffer();
    Outcome {
        answer: write_by(rules, &mut buffer, case.used, case.call),
        buffer,
    }
}
