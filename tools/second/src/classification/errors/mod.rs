//! Classifications that are wrong in one point, so that the table can say how many cases tell each from the right one.

mod calls;
mod tables;
mod wide;

pub use calls::CALLS;
pub use tables::{WrongTable, TABLES};
pub use wide::WIDE;
