//! Tests of the choice of cases and of the random source, and the samples of the paper. The tests of vocabularies, the
//! comparison and scripts stand beside these.

#![allow(clippy::unwrap_used, clippy::indexing_slicing)]

pub mod paper;

mod random;
mod select;

/// The bytes of a stored file, by its path from the root of the repository.
pub fn stored(path: &str) -> Vec<u8> {
    std::fs::read(format!("{}/../../{path}", env!("CARGO_MANIFEST_DIR"))).unwrap()
}
