//! The page of a recheck: one HTML file that says what was judged, by what, and what came of each line.
//!
//! Lines are added while the table is judged. The summary stands before them, so they are kept in a file until it is known;
//! memory does not grow with the table.

mod head;
mod listed;
mod row;
#[cfg(test)]
mod tests;

use super::hashed::Taken;
use super::kept::Seen;
use super::outcome::{Sort, Told};
use super::summary::Tally;
use crate::date::Date;
use crate::files::{Digest, Draft, FileId, Name};
use base::Failure;
use head::Head;
use listed::Listed;
use std::ffi::OsStr;

/// The most lines that the summary leads to.
const LED_TO: usize = 100;
/// What stands behind the lines.
const END: &str = "</table>\n</main>\n</body>\n</html>\n";

/// A page that is being made.
pub struct Page {
    draft: Draft,
    date: Date,
    /// The bytes of the table so far.
    taken: Taken,
    listed: Listed,
    /// The first lines that do not simply hold.
    first: Vec<u64>,
    /// The text of --words.
    words: Option<(Name, Digest)>,
    /// Whether lines that hold vacuously fail.
    strict: bool,
}

impl Page {
    /// Begins a page.
    pub fn begin(path: &OsStr, words: Option<(Name, Digest)>, strict: bool) -> Result<Page, Failure> {
        Ok(Page {
            date: Date::now()?,
            draft: Draft::begin(path)?,
            taken: Taken::default(),
            listed: Listed::new(),
            first: Vec::new(),
            words,
            strict,
        })
    }

    /// Where the hash of the table is taken.
    pub fn taken(&self) -> Taken {
        self.taken.clone()
    }

    /// The name of its file.
    pub fn name(&self) -> &Name {
        self.draft.name()
    }

    /// Refuses to come in the place of an input.
    pub fn spare(&self, input: Option<FileId>) -> Result<(), Failure> {
        self.draft.spare(input)
    }

    /// Adds a line.
    pub fn add(&mut self, told: &Told) -> Result<(), Failure> {
        let Some(shown) = &told.shown else { return Ok(()) };
        let mut others: Vec<&Seen> = Vec::new();
        for seen in &shown.files {
            self.draft.spare(seen.id)?;
            if !self.listed.has(seen) {
                others.push(seen);
            }
        }
        if told.outcome.sort != Sort::Holds && self.first.len() < LED_TO {
            self.first.push(told.number);
        }
        self.draft.add(&row::html(told, shown, &others))
    }

    /// Writes the page of a table that is read to its end, whole or not at all.
    pub fn finish(self, table: &Name, tally: &Tally) -> Result<(), Failure> {
        let head = Head {
            table,
            tally,
            digest: self.taken.digest(),
            date: self.date,
            listed: &self.listed,
            first: &self.first,
            words: self.words.as_ref(),
            strict: self.strict,
        };
        self.draft.finish(&head.html(), END)
    }
}
