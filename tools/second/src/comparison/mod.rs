//! The comparison (rows 1 to 8, 28, 10, 11 and 12), and the cases that try it.

mod call;
mod checks;
mod counts;
mod editions;
mod errors;
pub mod families;
mod file;
mod large;
pub mod meaning;
mod plan;
mod print;
mod random;
mod refused;
pub mod samples;
mod table;
mod terms;
#[cfg(test)]
mod tests;
mod types;

pub use call::{write as write_set, MOST_ATOMS, WRITTEN};
pub use file::{decode, encode, Case};
pub use large::{padded, push_last, STORED, WALK_12};
pub use plan::all;
pub use print::lines;
pub use random::vocabulary;
pub use refused::{sound, spoil, spoil_count};
pub use samples::{sample_4, v};
pub use table::{seeded_table, table};
pub use terms::Terms;
pub use types::{atoms, chained, Set, Types};
