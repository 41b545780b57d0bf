//! Script checks that are wrong in one point, so that the table can say how many cases tell each
//! from the right one. "Errors near at hand" of the paper and its imitations are among them.

use crate::script::rules::Rules;

/// A wrong check, and its name.
pub type Error = (&'static str, &'static dyn Rules);

mod repeats;
mod rows;
mod terms;

pub use repeats::NoRepeatsReduced;

/// All of them.
pub fn all() -> impl Iterator<Item = &'static Error> {
    [rows::ERRORS, terms::ERRORS, repeats::ERRORS].into_iter().flatten()
}
