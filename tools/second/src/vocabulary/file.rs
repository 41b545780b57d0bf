//! The file of vocabulary cases: one after the other. A case is the length of its vocabulary (16 bits),
//! a record number (32 bits), both low byte first, and the vocabulary.

use crate::cases;

/// A vocabulary, and the record number of the record call on it.
#[derive(Clone, Debug, PartialEq, Eq)]
pub struct Case {
    /// The bytes of the vocabulary.
    pub vocabulary: Vec<u8>,
    /// The record number.
    pub number: u32,
}

/// The bytes of a case's head.
const HEAD_BYTES: usize = 6;

/// The bytes of the file, or what is wrong with the cases.
pub fn encode(all: &[Case]) -> Result<Vec<u8>, String> {
    let mut bytes = Vec::new();
    for case in all {
        bytes.extend(cases::length(&case.vocabulary)?);
        bytes.extend(case.number.to_le_bytes());
        bytes.extend(&case.vocabulary);
    }
    Ok(bytes)
}

/// The case that bytes begin with, and what is left.
fn split(bytes: &[u8]) -> Option<(Case, &[u8])> {
    let (head, body) = bytes.split_first_chunk::<HEAD_BYTES>()?;
    let [l0, l1, n0, n1, n2, n3] = *head;
    let length = usize::from(u16::from_le_bytes([l0, l1]));
    let (vocabulary, after) = body.split_at_checked(length)?;
    let case = Case {
        vocabulary: vocabulary.to_vec(),
        number: u32::from_le_bytes([n0, n1, n2, n3]),
    };
    Some((case, after))
}

/// The cases of a file, or where it is malformed.
pub fn decode(bytes: &[u8]) -> Result<Vec<Case>, String> {
    cases::decode(bytes, split)
}
