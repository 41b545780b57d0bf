//! The file of classification cases, one after the other. A case is the length of its vocabulary, the number of bytes
//! lent for the survivors and the number lent for the taxonomy (16 bits each, low byte first), the seed of what both
//! hold (8 bits), and the vocabulary. No byte of the one buffer is that of the other at the same place, so that a byte
//! taken from the wrong one shows.

use crate::cases;
use crate::lent::filled;

/// A vocabulary, and the bytes that are lent.
#[derive(Clone, Debug, PartialEq, Eq)]
pub struct Case {
    /// The bytes of the vocabulary.
    pub vocabulary: Vec<u8>,
    /// How many bytes are lent for the survivors, and for the taxonomy.
    pub lent: [u16; 2],
    /// The first byte lent for the survivors before the call; the first one lent for the taxonomy is 255 - seed.
    pub seed: u8,
}

/// The bytes of a case's head.
const HEAD_BYTES: usize = 7;

impl Case {
    /// The same case with another vocabulary.
    pub fn over(&self, vocabulary: Vec<u8>) -> Case {
        let case = self.clone();
        Case { vocabulary, ..case }
    }

    /// The lent bytes before the call.
    pub fn buffers(&self) -> [Vec<u8>; 2] {
        let [survivors, taxonomy] = self.lent;
        [filled(survivors, self.seed), filled(taxonomy, u8::MAX - self.seed)]
    }

    /// The case that bytes begin with, and what is left.
    fn split(bytes: &[u8]) -> Option<(Case, &[u8])> {
        let (head, body) = bytes.split_first_chunk::<HEAD_BYTES>()?;
        let [v0, v1, s0, s1, t0, t1, seed] = *head;
        let [length, survivors, taxonomy] = [[v0, v1], [s0, s1], [t0, t1]].map(u16::from_le_bytes);
        let (vocabulary, rest) = body.split_at_checked(usize::from(length))?;
        let lent = [survivors, taxonomy];
        let vocabulary = vocabulary.to_vec();
        Some((Case { vocabulary, lent, seed }, rest))
    }
}

/// The bytes of the file, or what is wrong with the cases.
pub fn encode(all: &[Case]) -> Result<Vec<u8>, String> {
    let mut bytes = Vec::new();
    for case in all {
        bytes.extend(cases::length(&case.vocabulary)?);
        bytes.extend(case.lent.map(u16::to_le_bytes).as_flattened());
        bytes.push(case.seed);
        bytes.extend(&case.vocabulary);
    }
    Ok(bytes)
}

/// The cases of a file, or where it is malformed.
pub fn decode(bytes: &[u8]) -> Result<Vec<Case>, String> {
    cases::decode(bytes, Case::split)
}
