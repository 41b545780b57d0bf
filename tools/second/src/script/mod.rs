//! The script check (rows 1 to 8, 28, 13, 14, 10 and 15 to 25), and the cases that try it.

mod call;
mod chain;
mod checks;
mod columns;
mod damage;
mod editions;
mod errors;
mod families;
mod faults;
mod file;
mod form;
mod long;
mod merged;
mod plan;
mod prover;
mod random;
mod records;
mod reduced;
mod repeats;
mod rewritten;
mod rules;
mod samples;
mod sorts;
mod steps;
mod table;
#[cfg(test)]
mod tests;
mod towers;
mod unrecorded;
mod walks;
mod writer;

pub use file::{decode, encode, lines, Case};
pub use plan::all;
pub use table::{seeded_table, table};
