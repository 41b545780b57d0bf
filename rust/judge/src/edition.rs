//! The editions of a vocabulary's header, and the number of atoms, which edition 2 holds.

use crate::{check_vocabulary, Refusal, Rule};

/// The edition of a vocabulary's header. Of accepted vocabularies that differ in it alone, comparison, classification and
/// script check say the same.
#[derive(Clone, Copy, Debug, PartialEq, Eq)]
pub enum Edition {
    /// The second byte is 1, and next is 0.
    One = 1,
    /// The second byte is 2, and next is k, the number of atoms. New vocabularies have it.
    Two = 2,
}

impl Edition {
    /// The edition of a number.
    pub fn of(number: u8) -> Option<Edition> {
        let named = |edition: &Edition| edition.number() == number;
        [Edition::One, Edition::Two].into_iter().find(named)
    }

    /// Its number, which is the header's second byte.
    pub fn number(self) -> u8 {
        self as u8
    }
}

/// A number of atoms that no vocabulary has: there are at most 511.
const TOO_MANY: u16 = u16::MAX;

/// The edition of an accepted vocabulary.
pub fn edition(vocabulary: &[u8]) -> Result<Edition, Refusal> {
    check_vocabulary(vocabulary)?;
    Ok(match vocabulary {
        [_, 2, ..] => Edition::Two,
        _ => Edition::One,
    })
}

/// k, the number of atoms (names and restrictions) of an accepted vocabulary; up to [`ATOMS`](crate::ATOMS) it can be compared
/// and classified. Edition 2 has it in the header. Of edition 1 it is the library's own count all the same: it is asked about
/// a copy of edition 2 with a number that cannot be, and the place of its refusal (28) is k.
///
/// ```
/// let mut terms = judge::Builder::new(1)?;
/// let goods = terms.name(7)?;
/// terms.some(0, goods)?;
/// assert_eq!(judge::atoms(terms.as_bytes()), Ok(2));
/// terms.set_edition(judge::Edition::One)?;
/// assert_eq!(judge::atoms(terms.as_bytes()), Ok(2));
/// # Ok::<(), judge::Refusal>(())
/// ```
pub fn atoms(vocabulary: &[u8]) -> Result<u16, Refusal> {
    match (edition(vocabulary)?, vocabulary) {
        (Edition::Two, [_, _, _, _, _, _, low, high, ..]) => Ok(u16::from_le_bytes([*low, *high])),
        _ => counted(vocabulary.to_vec()),
    }
}

/// k of a vocabulary that is accepted but for what its header holds, as the library counts it.
fn counted(mut copy: Vec<u8>) -> Result<u16, Refusal> {
    write_edition(&mut copy, Edition::Two, TOO_MANY);
    match check_vocabulary(&copy) {
        Err(Refusal {
            rule: Rule::AtomCount,
            place,
        }) => Ok(place as u16),
        // What is accepted holds the true number.
        answer => answer.map(|_| TOO_MANY),
    }
}

/// Gives an accepted vocabulary a header of an edition; it stays accepted, and no byte changes but the header's second and
/// its next. A refused one stays as it is.
///
/// ```
/// let mut vocabulary = [16, 1, 0, 0, 0, 0, 0, 0, 3, 0, 7, 0, 0, 0, 0, 0]; // a header and a name
/// judge::set_edition(&mut vocabulary, judge::Edition::Two)?;
/// assert_eq!(vocabulary[..8], [16, 2, 0, 0, 0, 0, 1, 0]);
/// assert_eq!(judge::check_vocabulary(&vocabulary), Ok(2));
/// # Ok::<(), judge::Refusal>(())
/// ```
pub fn set_edition(vocabulary: &mut [u8], edition: Edition) -> Result<(), Refusal> {
    let atoms = atoms(vocabulary)?;
    let next = match edition {
        Edition::One => 0,
        Edition::Two => atoms,
    };
    write_edition(vocabulary, edition, next);
    Ok(())
}

/// Writes the two fields of a header that hang on the edition.
fn write_edition(vocabulary: &mut [u8], edition: Edition, next: u16) {
    if let [_, second, _, _, _, _, low, high, ..] = vocabulary {
        *second = edition.number();
        [*low, *high] = next.to_le_bytes();
    }
}
