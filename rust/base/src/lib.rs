//! What the commands `desk` and `bridge` share: vocabularies as records, the command line, exit statuses, failures.

pub mod arguments;
pub mod chain;
pub mod failure;
pub mod sha256;
pub mod spelling;
pub mod vocabulary;

pub use failure::{Failure, Status};
