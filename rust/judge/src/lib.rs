//! The duty vocabulary judge from Rust: a safe wrapper of the eight calls of libjudge.a.
//!
//! Every call takes slices of any content and length, and answers or refuses: none panics, none needs a
//! condition. What an answer means (docs/FORMATS.md) is proved of the library's Rattle source; the compiler's
//! back end and the linker are trusted, and this wrapper, which takes the numbers apart, is tested. A borrowed
//! buffer overlaps neither a vocabulary nor another buffer, so what include/judge.h asks of pointers holds by
//! itself. A call runs on the caller's stack: [`STACK_BYTES`] are enough.
//!
//! ```
//! let vocabulary = [16, 1, 0, 0, 0, 0, 0, 0, 3, 0, 7, 0, 0, 0, 0, 0]; // a header and a name
//! assert_eq!(judge::check_vocabulary(&vocabulary), Ok(2));
//! let mut survivors = [0; judge::SURVIVOR_BYTES];
//! let answer = judge::compare(&vocabulary, 1, 1, &mut survivors)?;
//! assert_eq!(answer.verdict, judge::Verdict::Equal);
//! # Ok::<(), judge::Refusal>(())
//! ```
//!
//! Five calls read. Three write a vocabulary record by record, and [`Builder`] keeps their buffer. A vocabulary's header has
//! an [`Edition`]; new ones have edition 2, which holds the number of atoms ([`atoms`]).

mod builder;
mod edition;
mod refusal;

pub use builder::Builder;
pub use edition::{atoms, edition, set_edition, Edition};
pub use refusal::{Place, Refusal, Rule};

/// The version of the library that this wraps, as `JUDGE_VERSION` of include/judge.h has it.
pub const VERSION: &str = env!("CARGO_PKG_VERSION");
/// The most bytes that a vocabulary may have.
pub const VOCABULARY_BYTES: usize = 4096;
/// The most bytes that a script may have.
pub const SCRIPT_BYTES: usize = 32_768;
/// The bytes of a vocabulary's record.
pub const RECORD_BYTES: usize = 8;
/// The bytes of a script's record.
pub const SCRIPT_RECORD_BYTES: usize = 16;
/// The bytes that a comparison and a classification write, and ask for.
pub const SURVIVOR_BYTES: usize = 512;
/// The bytes that a classification writes, and asks for, beside the survivors.
pub const TAXONOMY_BYTES: usize = 144;
/// The most records of a vocabulary, header included.
pub const RECORDS: usize = VOCABULARY_BYTES / RECORD_BYTES;
/// The most records of a script, header included.
pub const SCRIPT_RECORDS: usize = SCRIPT_BYTES / SCRIPT_RECORD_BYTES;
/// The most roles of a vocabulary.
pub const ROLES: usize = 64;
/// The most atoms (names and restrictions) of a vocabulary to compare or to classify.
pub const ATOMS: usize = 12;
/// The most frames that may be open together while a script is checked.
pub const FRAMES: usize = 64;
/// Stack that is enough for any call, measured (include/judge.h).
pub const STACK_BYTES: usize = 131_072;

mod library {
    extern "C" {
        pub fn judge_check_vocabulary(vocabulary: *const u8, vocabulary_len: usize) -> u64;
        pub fn judge_record(vocabulary: *const u8, vocabulary_len: usize, number: u32) -> u64;
        pub fn judge_compare(
            vocabulary: *const u8,
            vocabulary_len: usize,
            a: u32,
            b: u32,
            buffer: *mut u8,
            buffer_len: usize,
        ) -> u64;
        pub fn judge_classify(
            vocabulary: *const u8,
            vocabulary_len: usize,
            survivors: *mut u8,
            survivors_len: usize,
            taxonomy: *mut u8,
            taxonomy_len: usize,
        ) -> u64;
        pub fn judge_check_script(
            vocabulary: *const u8,
            vocabulary_len: usize,
            script: *const u8,
            script_len: usize,
        ) -> u64;
        pub fn judge_make_vocabulary(buffer: *mut u8, buffer_len: usize, roles: u32) -> u64;
        pub fn judge_add_term(buffer: *mut u8, buffer_len: usize, used: usize, kind: u8, a: u16, b: u16) -> u64;
        pub fn judge_add_statement(buffer: *mut u8, buffer_len: usize, used: usize, a: u16, b: u16) -> u64;
    }
}

/// Whether two terms are equal in every finite interpretation that satisfies the statements.
#[derive(Clone, Copy, Debug, PartialEq, Eq)]
pub enum Verdict {
    /// They are.
    Equal,
    /// They are not.
    Different {
        /// The smallest survivor that belongs to just one of the two.
        element: u16,
    },
}

/// The answer of a comparison.
#[derive(Clone, Copy, Debug, PartialEq, Eq)]
pub struct Comparison {
    /// Equal or Different.
    pub verdict: Verdict,
    /// The number of survivors.
    pub survivors: u32,
    /// The number of rounds that removed a type.
    pub rounds: u32,
}

/// The answer of a classification.
#[derive(Clone, Copy, Debug, PartialEq, Eq)]
pub struct Classification {
    /// The number of survivors. With none, no finite interpretation satisfies the statements, and all names are equal.
    pub survivors: u32,
    /// The number of rounds that removed a type.
    pub rounds: u32,
}

/// What a taxonomy says of a first name and a second, in every finite interpretation that satisfies the statements.
#[derive(Clone, Copy, Debug, PartialEq, Eq)]
pub enum Relation {
    /// They are equal; a name is so with itself.
    Equal,
    /// The second is strictly broader than the first, and no name is strictly between.
    NearestBroader,
    /// Neither of these.
    Neither,
}

/// The vocabulary check: the number of records, header included. Refused by rules 1 to 8, then 28.
pub fn check_vocabulary(vocabulary: &[u8]) -> Result<u32, Refusal> {
    // SAFETY: a slice's pointer is not null and has as many readable bytes as its length says.
    value(unsafe { library::judge_check_vocabulary(vocabulary.as_ptr(), vocabulary.len()) })
}

/// The record call: the eight bytes of a record, as a part of the vocabulary. Refused by rules 1 and 9 only, so that
/// the records of a vocabulary that the check refuses can be looked at.
pub fn record(vocabulary: &[u8], number: u32) -> Result<&[u8], Refusal> {
    // SAFETY: as above.
    let offset = value(unsafe { library::judge_record(vocabulary.as_ptr(), vocabulary.len(), number) })? as usize;
    Ok(vocabulary.get(offset..offset + RECORD_BYTES).unwrap_or_default())
}

/// The comparison of the terms numbered `a` and `b`, of an accepted vocabulary of at most [`ATOMS`] atoms. The survivors
/// are written into the first [`SURVIVOR_BYTES`] of the buffer; a refusal writes nothing.
pub fn compare(vocabulary: &[u8], a: u32, b: u32, buffer: &mut [u8]) -> Result<Comparison, Refusal> {
    // SAFETY: as above; the buffer is writable, and overlaps nothing, since it is borrowed for writing.
    let answer = taken(unsafe {
        library::judge_compare(
            vocabulary.as_ptr(),
            vocabulary.len(),
            a,
            b,
            buffer.as_mut_ptr(),
            buffer.len(),
        )
    })?;
    let [survivors, rounds] = counts(answer);
    Ok(Comparison {
        verdict: match bits(answer, 8, 1) {
            0 => Verdict::Equal,
            _ => Verdict::Different {
                element: bits(answer, 9, 16) as u16,
            },
        },
        survivors,
        rounds,
    })
}

/// The classification of the names of an accepted vocabulary of at most [`ATOMS`] atoms: which are equal, and which are
/// the nearest broader names of each. The survivors are written into the first [`SURVIVOR_BYTES`] of the one buffer, the
/// taxonomy, which [`relation`] reads, into the first [`TAXONOMY_BYTES`] of the other; a refusal writes nothing.
///
/// ```
/// // Names 1 and 2, and the statement that the first lies within the second.
/// let vocabulary = [
///     16, 1, 3, 0, 0, 0, 0, 0, 3, 0, 7, 0, 0, 0, 0, 0, 3, 0, 8, 0, 0, 0, 0, 0, 9, 0, 1, 0, 2, 0, 0, 0,
/// ];
/// let (mut survivors, mut taxonomy) = ([0; judge::SURVIVOR_BYTES], [0; judge::TAXONOMY_BYTES]);
/// let answer = judge::classify(&vocabulary, &mut survivors, &mut taxonomy)?;
/// assert_eq!(answer.survivors, 3);
/// assert_eq!(judge::relation(&taxonomy, 2, 0, 1), judge::Relation::NearestBroader);
/// # Ok::<(), judge::Refusal>(())
/// ```
pub fn classify(vocabulary: &[u8], survivors: &mut [u8], taxonomy: &mut [u8]) -> Result<Classification, Refusal> {
    // SAFETY: as above; both buffers are borrowed for writing, so neither overlaps the other.
    let answer = taken(unsafe {
        library::judge_classify(
            vocabulary.as_ptr(),
            vocabulary.len(),
            survivors.as_mut_ptr(),
            survivors.len(),
            taxonomy.as_mut_ptr(),
            taxonomy.len(),
        )
    })?;
    let [survivors, rounds] = counts(answer);
    Ok(Classification { survivors, rounds })
}

/// What the taxonomy of a vocabulary of so many names says of two of them, numbered from 0 in record order. Of a number
/// that is no name's it says [`Relation::Neither`].
pub fn relation(taxonomy: &[u8], names: usize, first: usize, second: usize) -> Relation {
    let place = (names <= ATOMS && first < names && second < names).then(|| first * names + second);
    match place.and_then(|place| taxonomy.get(place)) {
        Some(2) => Relation::Equal,
        Some(1) => Relation::NearestBroader,
        _ => Relation::Neither,
    }
}

/// The script check: the number of steps of a script that proves what its header asks. It is accepted exactly when it
/// keeps the form and its chain is a derivation of at most [`FRAMES`] open frames. A refusal does not say that what it
/// asks is false; after [`Rule::Frames`] its chain may well be a derivation of more frames. A term may stand under several
/// records, and is the same term in each.
pub fn check_script(vocabulary: &[u8], script: &[u8]) -> Result<u32, Refusal> {
    // SAFETY: as above.
    value(unsafe { library::judge_check_script(vocabulary.as_ptr(), vocabulary.len(), script.as_ptr(), script.len()) })
}

/// Makes an empty vocabulary of so many roles, of edition 2, in the first [`RECORD_BYTES`] of a buffer, and answers their
/// number: the bytes in use. What lies behind keeps its content; a refusal (27, then 2) writes nothing.
///
/// ```
/// let mut buffer = [9; 12];
/// assert_eq!(judge::make_vocabulary(&mut buffer, 2), Ok(8));
/// assert_eq!(buffer, [16, 2, 0, 0, 2, 0, 0, 0, 9, 9, 9, 9]);
/// ```
pub fn make_vocabulary(buffer: &mut [u8], roles: u32) -> Result<usize, Refusal> {
    // SAFETY: a slice's pointer is not null and has as many bytes as its length says; they are borrowed for writing.
    length(unsafe { library::judge_make_vocabulary(buffer.as_mut_ptr(), buffer.len(), roles) })
}

/// Adds a term of kind 1 to 8 to the vocabulary in the first `used` bytes of a buffer, and answers the bytes then in use. On
/// success the new record's eight bytes change, and the number of atoms in a header of edition 2, which stays true; no others
/// do, and a refusal writes nothing. The bytes in use first meet 1 to 8 and 28, then there has to be room (27), then the new
/// record meets 3 to 7 as the vocabulary check has them.
///
/// ```
/// let mut buffer = [0; 24];
/// let used = judge::make_vocabulary(&mut buffer, 0)?;
/// let used = judge::add_term(&mut buffer, used, 3, 7, 0)?; // the name labelled 7 is record 1
/// let used = judge::add_term(&mut buffer, used, 4, 1, 0)?; // not 1
/// assert_eq!(judge::check_vocabulary(&buffer[..used]), Ok(3));
/// # Ok::<(), judge::Refusal>(())
/// ```
pub fn add_term(buffer: &mut [u8], used: usize, kind: u8, a: u16, b: u16) -> Result<usize, Refusal> {
    // SAFETY: as above.
    length(unsafe { library::judge_add_term(buffer.as_mut_ptr(), buffer.len(), used, kind, a, b) })
}

/// Adds the statement that term `a` lies within term `b`, at the end of the chain. Answers and refuses as [`add_term`]; on
/// success the link that reaches the new record changes with it.
pub fn add_statement(buffer: &mut [u8], used: usize, a: u16, b: u16) -> Result<usize, Refusal> {
    // SAFETY: as above.
    length(unsafe { library::judge_add_statement(buffer.as_mut_ptr(), buffer.len(), used, a, b) })
}

/// `count` bits of an answer from bit `first` on.
fn bits(answer: u64, first: u32, count: u32) -> u64 {
    answer >> first & ((1 << count) - 1)
}

/// The numbers of survivors and of rounds that a comparison or a classification answers.
fn counts(answer: u64) -> [u32; 2] {
    [25, 42].map(|first| bits(answer, first, 17) as u32)
}

/// The answer, unless it is a refusal.
fn taken(answer: u64) -> Result<u64, Refusal> {
    match bits(answer, 0, 8) as u8 {
        0 => Ok(answer),
        number => Err(Refusal {
            rule: Rule::of(number),
            place: bits(answer, 8, 32) as u32,
        }),
    }
}

/// The value that an answer carries in bits 8 to 39, unless it is a refusal.
fn value(answer: u64) -> Result<u32, Refusal> {
    taken(answer).map(|answer| bits(answer, 8, 32) as u32)
}

/// The number of bytes in use that an answer carries, unless it is a refusal.
fn length(answer: u64) -> Result<usize, Refusal> {
    value(answer).map(|length| length as usize)
}
