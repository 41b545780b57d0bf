//! The writer (making: rows 27 and 2; additions: rows 1 to 8, 28, 27, and 3 to 7 at the new record), and the cases that
//! try it.

mod call;
mod chains;
mod checks;
mod counted;
mod editions;
mod errors;
mod file;
mod lengths;
mod making;
mod own;
mod plan;
mod print;
mod random;
mod refused;
mod rules;
mod sequences;
mod sorts;
mod table;
mod tails;
#[cfg(test)]
mod tests;

#[cfg(test)]
pub use file::Call;
pub use file::{decode, encode, Case};
pub use plan::all;
pub use print::lines;
pub use table::{seeded_table, table};
