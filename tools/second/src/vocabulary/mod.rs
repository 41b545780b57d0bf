//! The vocabulary check (rows 1 to 8, then 28), the record call (rows 1 and 9), and the cases that try them.

mod call;
mod counts;
mod draft;
pub mod editions;
mod errors;
pub mod faults;
mod file;
mod plan;
mod print;
pub mod records;
mod rules;
#[cfg(test)]
mod tests;
pub mod told;

pub use call::{applies, chain, check_vocabulary, refuse_if, Refusal, MOST_RECORDS, MOST_ROLES};
pub use counts::{edition_samples, long_samples};
pub use draft::Draft;
pub use errors::refused_before;
pub use file::{decode, encode, Case};
pub use plan::{all, earlier, misses};
pub use print::{lines, Table};
