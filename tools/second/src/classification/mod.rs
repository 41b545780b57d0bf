//! The classification (rows 1 to 8, 28, 11, 12 and 26), and the cases that try it.

mod call;
mod checks;
mod editions;
mod elimination;
mod errors;
mod file;
mod halves;
mod large;
mod plan;
mod print;
mod random;
mod refused;
mod samples;
mod shapes;
mod small;
mod stated;
mod table;
mod taxonomy;
#[cfg(test)]
mod tests;

pub use file::{decode, encode, Case};
pub use plan::all;
pub use print::lines;
pub use table::{seeded_table, table};
