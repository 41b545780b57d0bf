//! The file of writer cases, one after the other. A case is the length of what its buffer begins with, the number of
//! bytes lent behind that (16 bits each), the seed of what these hold (8 bits), the call (8 bits: 0 makes a vocabulary,
//! 1 adds a term, 2 a statement), the kind (8 bits), A and B (16 bits each; one number of 32 bits, the role count, where
//! a vocabulary is made), the length in use (64 bits), all low byte first, and what the buffer begins with. What a call
//! does not take is 0.

use crate::cases;
use crate::lent::filled;

/// A call, with the numbers that it takes beside the buffer and the length in use.
#[derive(Clone, Copy, Debug, PartialEq, Eq)]
pub enum Call {
    /// Makes an empty vocabulary.
    Make {
        /// The role count.
        roles: u32,
    },
    /// Adds a term.
    Term {
        /// The kind.
        kind: u8,
        /// A.
        a: u16,
        /// B.
        b: u16,
    },
    /// Adds a statement.
    Statement {
        /// A.
        a: u16,
        /// B.
        b: u16,
    },
}

/// A buffer, and a call.
#[derive(Clone, Debug, PartialEq, Eq)]
pub struct Case {
    /// What the buffer begins with.
    pub content: Vec<u8>,
    /// How many bytes are lent behind that.
    pub behind: u16,
    /// What these hold: byte i of the buffer is 7 i + seed, modulo 256.
    pub seed: u8,
    /// The call.
    pub call: Call,
    /// The length in use; 0 where a vocabulary is made.
    pub used: u64,
}

/// The bytes of a case's head.
const HEAD_BYTES: usize = 19;

impl Call {
    /// The call's number, the kind, A and B.
    fn encode(self) -> [u8; 6] {
        let (call, kind, [a0, a1, b0, b1]) = match self {
            Call::Make { roles } => (0, 0, roles.to_le_bytes()),
            Call::Term { kind, a, b } => (1, kind, fields(a, b)),
            Call::Statement { a, b } => (2, 0, fields(a, b)),
        };
        [call, kind, a0, a1, b0, b1]
    }

    /// The call that these bytes say.
    fn decode([call, kind, a0, a1, b0, b1]: [u8; 6]) -> Call {
        let [a, b] = [[a0, a1], [b0, b1]].map(u16::from_le_bytes);
        match call {
            0 => Call::Make {
                roles: u32::from_le_bytes([a0, a1, b0, b1]),
            },
            1 => Call::Term { kind, a, b },
            _ => Call::Statement { a, b },
        }
    }
}

/// The bytes of A and B.
fn fields(a: u16, b: u16) -> [u8; 4] {
    let [[a0, a1], [b0, b1]] = [a, b].map(u16::to_le_bytes);
    [a0, a1, b0, b1]
}

impl Case {
    /// The lent bytes before the call.
    pub fn buffer(&self) -> Vec<u8> {
        let length = self.content.len() + usize::from(self.behind);
        let filling = filled(length, self.seed).into_iter().skip(self.content.len());
        self.content.iter().copied().chain(filling).collect()
    }

    /// The case that bytes begin with, and what is left.
    fn split(bytes: &[u8]) -> Option<(Case, &[u8])> {
        let (head, body) = bytes.split_first_chunk::<HEAD_BYTES>()?;
        let [l0, l1, r0, r1, seed, call, kind, a0, a1, b0, b1, used @ ..] = *head;
        let [length, behind] = [[l0, l1], [r0, r1]].map(u16::from_le_bytes);
        let (content, rest) = body.split_at_checked(usize::from(length))?;
        let case = Case {
            content: content.to_vec(),
            behind,
            seed,
            call: Call::decode([call, kind, a0, a1, b0, b1]),
            used: u64::from_le_bytes(used),
        };
        Some((case, rest))
    }
}

/// The bytes of the file, or what is wrong with the cases.
pub fn encode(all: &[Case]) -> Result<Vec<u8>, String> {
    let mut bytes = Vec::new();
    for case in all {
        bytes.extend(cases::length(&case.content)?);
        bytes.extend(case.behind.to_le_bytes());
        bytes.push(case.seed);
        bytes.extend(case.call.encode());
        bytes.extend(case.used.to_le_bytes());
        bytes.extend(&case.content);
    }
    Ok(bytes)
}

/// The cases of a file, or where it is malformed.
pub fn decode(bytes: &[u8]) -> Result<Vec<Case>, String> {
    cases::decode(bytes, Case::split)
}
