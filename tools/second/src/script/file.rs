//! The file of script cases, one after the other: the length of the vocabulary, the length of the
//! script (16 bits each, low byte first), the vocabulary and the script. And the expected output.

use crate::cases;
use crate::script::call::check_script;
use crate::vocabulary::Refusal;

/// A vocabulary, and a script over it.
#[derive(Clone, Debug, PartialEq, Eq)]
pub struct Case {
    /// The bytes of the vocabulary.
    pub vocabulary: Vec<u8>,
    /// The bytes of the script.
    pub script: Vec<u8>,
}

/// The bytes of a case's head.
const HEAD_BYTES: usize = 4;

impl Case {
    /// The case that bytes begin with, and what is left.
    fn split(bytes: &[u8]) -> Option<(Case, &[u8])> {
        let ([v0, v1, s0, s1], body) = bytes.split_first_chunk::<HEAD_BYTES>()?;
        let length = |low: &u8, high: &u8| usize::from(u16::from_le_bytes([*low, *high]));
        let (vocabulary, rest) = body.split_at_checked(length(v0, v1))?;
        let (script, rest) = rest.split_at_checked(length(s0, s1))?;
        let case = Case {
            vocabulary: vocabulary.to_vec(),
            script: script.to_vec(),
        };
        Some((case, rest))
    }
}

/// The bytes of the file, or what is wrong with the cases.
pub fn encode(all: &[Case]) -> Result<Vec<u8>, String> {
    let mut bytes = Vec::new();
    for case in all {
        bytes.extend(cases::length(&case.vocabulary)?);
        bytes.extend(cases::length(&case.script)?);
        bytes.extend(&case.vocabulary);
        bytes.extend(&case.script);
    }
    Ok(bytes)
}

/// The cases of a file, or where it is malformed.
pub fn decode(bytes: &[u8]) -> Result<Vec<Case>, String> {
    cases::decode(bytes, Case::split)
}

/// The line of an answer, without its line end.
pub fn line(answer: Result<usize, Refusal>) -> String {
    match answer {
        Ok(steps) => format!("accepted {steps}"),
        Err(refusal) => format!("refused {} {}", refusal.number, refusal.place),
    }
}

/// The expected output for cases: a line for each.
pub fn lines(cases: &[Case]) -> String {
    let answer = |case: &Case| check_script(&case.vocabulary, &case.script);
    cases.iter().map(|case| line(answer(case)) + "\n").collect()
}
