//! Writers that are wrong in one point, so that the table can say how many cases tell each from the right one.

use crate::writer::rules::Rules;

mod counts;
mod lengths;
mod links;
mod making;
mod own;
mod records;

/// A wrong writer, and its name.
pub type Error = (&'static str, &'static dyn Rules);

/// All of them.
pub fn all() -> impl Iterator<Item = &'static Error> {
    [
        making::ERRORS,
        lengths::ERRORS,
        own::ERRORS,
        records::ERRORS,
        links::ERRORS,
        counts::ERRORS,
    ]
    .into_iter()
    .flatten()
}
