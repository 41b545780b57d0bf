//! The file of comparison cases, one after the other. A case is the length of its vocabulary
//! (16 bits), the two term numbers (32 bits each), the number of bytes lent (16 bits), all low byte
//! first, the seed of what they hold (8 bits), and the vocabulary.

use crate::cases;
use crate::lent::filled;

/// A vocabulary, the two terms to compare, and the bytes that are lent.
#[derive(Clone, Debug, PartialEq, Eq)]
pub struct Case {
    /// The bytes of the vocabulary.
    pub vocabulary: Vec<u8>,
    /// The number of the first term.
    pub a: u32,
    /// The number of the second term.
    pub b: u32,
    /// How many bytes are lent.
    pub lent: u16,
    /// The first of them before the call.
    pub seed: u8,
}

/// The bytes of a case's head.
const HEAD_BYTES: usize = 13;

impl Case {
    /// The same case with another vocabulary.
    pub fn over(&self, vocabulary: Vec<u8>) -> Case {
        let case = self.clone();
        Case { vocabulary, ..case }
    }

    /// The lent bytes before the call.
    pub fn buffer(&self) -> Vec<u8> {
        filled(self.lent, self.seed)
    }

    /// The case that bytes begin with, and what is left.
    fn split(bytes: &[u8]) -> Option<(Case, &[u8])> {
        let (head, body) = bytes.split_first_chunk::<HEAD_BYTES>()?;
        let [l0, l1, a0, a1, a2, a3, b0, b1, b2, b3, n0, n1, seed] = *head;
        let (vocabulary, rest) = body.split_at_checked(usize::from(u16::from_le_bytes([l0, l1])))?;
        let case = Case {
            vocabulary: vocabulary.to_vec(),
            a: u32::from_le_bytes([a0, a1, a2, a3]),
            b: u32::from_le_bytes([b0, b1, b2, b3]),
            lent: u16::from_le_bytes([n0, n1]),
            seed,
        };
        Some((case, rest))
    }
}

/// The bytes of the file, or what is wrong with the cases.
pub fn encode(all: &[Case]) -> Result<Vec<u8>, String> {
    let mut bytes = Vec::new();
    for case in all {
        bytes.extend(cases::length(&case.vocabulary)?);
        bytes.extend(case.a.to_le_bytes());
        bytes.extend(case.b.to_le_bytes());
        bytes.extend(case.lent.to_le_bytes());
        bytes.push(case.seed);
        bytes.extend(&case.vocabulary);
    }
    Ok(bytes)
}

/// The cases of a file, or where it is malformed.
pub fn decode(bytes: &[u8]) -> Result<Vec<Case>, String> {
    cases::decode(bytes, Case::split)
}
