//! The comparison: its refusals in table order, its answer, and what it writes.

use crate::comparison::types::{atoms, Set, Types};
use crate::vocabulary::records::{records, Record};
use crate::vocabulary::{check_vocabulary, refuse_if, Refusal};

/// The most atoms that are compared.
pub const MOST_ATOMS: usize = 12;
/// The bytes that have to be lent, all of which are written.
pub const WRITTEN: usize = 512;

/// An answer that is no refusal.
#[derive(Clone, Debug, PartialEq, Eq)]
pub struct Compared {
    /// The smallest survivor at which the two terms differ; none where they are equal.
    pub element: Option<usize>,
    /// The survivors.
    pub survivors: Set,
    /// How many rounds removed something.
    pub rounds: usize,
}

/// Compares the terms a and b, and writes the survivors into the buffer.
pub fn compare(vocabulary: &[u8], a: u32, b: u32, buffer: &mut [u8]) -> Result<Compared, Refusal> {
    check_vocabulary(vocabulary)?;
    let records = records(vocabulary);
    for number in [a, b] {
        refuse_if(!is_term(&records, number), 10, number as usize)?;
    }
    let k = atoms(&records).len();
    refuse_if(k > MOST_ATOMS, 11, k)?;
    let lent = buffer.first_chunk_mut::<WRITTEN>();
    let written = lent.ok_or(Refusal { number: 12, place: 0 })?;
    let compared = answer(&Types::of(records), a, b);
    write(&compared.survivors, written);
    Ok(compared)
}

/// Whether a number is that of a term.
fn is_term(records: &[Record], number: u32) -> bool {
    records.get(number as usize).is_some_and(Record::is_term)
}

/// The answer for two terms.
pub fn answer(types: &Types, a: u32, b: u32) -> Compared {
    let (survivors, rounds) = types.survivors();
    Compared {
        element: first_difference(types, &survivors, a, b),
        survivors,
        rounds,
    }
}

/// The smallest type of a set at which two terms differ.
pub fn first_difference(types: &Types, set: &Set, a: u32, b: u32) -> Option<usize> {
    let differ = |t: &usize| types.is_true(a as usize, *t) != types.is_true(b as usize, *t);
    set.iter().copied().find(differ)
}

/// Writes a set: bit t mod 8 of byte t div 8 is 1 for its members, all other bits are 0.
pub fn write(set: &Set, bytes: &mut [u8; WRITTEN]) {
    bytes.fill(0);
    for t in set {
        if let Some(byte) = bytes.get_mut(t / 8) {
            *byte |= 1 << (t % 8);
        }
    }
}
