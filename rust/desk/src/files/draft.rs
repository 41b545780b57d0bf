//! An output that is made piece by piece, be it larger than memory: its body is kept in a file without a name until what
//! stands before it is known.

use super::replace::Temporary;
use super::write::{directory, follow, look, unwritable, unwritten, write_from, INPUT};
use super::{FileId, Name};
use crate::streams;
use base::Failure;
use std::ffi::{OsStr, OsString};
use std::fs::File;
use std::io::{BufWriter, Read, Seek, Write};
use std::path::Path;

/// An output that is being made. Nothing is at its place until it is finished, and nothing is left where it is not.
pub struct Draft {
    path: OsString,
    name: Name,
    /// The file in whose place it comes.
    old: Option<FileId>,
    body: BufWriter<File>,
}

impl Draft {
    /// Begins an output. What keeps it from being made is told here as far as it is known, and not after a long run.
    pub fn begin(path: &OsStr) -> Result<Draft, Failure> {
        let name = Name::new(path);
        let end = follow(Path::new(path));
        let about = look(&name, Path::new(path), &end)?;
        let is_special = about.as_ref().is_some_and(|about| !about.is_file()) || streams::is_descriptor(&end);
        let place = if is_special {
            std::env::temp_dir()
        } else {
            directory(&end)
        };
        let temporary = Temporary::beside(&name, &place, about.as_ref())?;
        // The name goes at once; the file lives as long as it is open.
        let file = temporary.file.try_clone();
        let body = file.map(BufWriter::new).map_err(|error| unwritable(&name, &error))?;
        Ok(Draft {
            path: path.to_os_string(),
            old: about.as_ref().and_then(FileId::of),
            name,
            body,
        })
    }

    /// The name by which messages call it.
    pub fn name(&self) -> &Name {
        &self.name
    }

    /// Refuses to come in the place of an input.
    pub fn spare(&self, input: Option<FileId>) -> Result<(), Failure> {
        if input.is_some() && self.old == input {
            return Err(unwritten(&self.name, INPUT));
        }
        Ok(())
    }

    /// Adds to its body.
    pub fn add(&mut self, text: &str) -> Result<(), Failure> {
        let written = self.body.write_all(text.as_bytes());
        written.map_err(|error| unwritable(&self.name, &error))
    }

    /// Puts it in its place, whole or not at all, with what stands before the body and behind it.
    pub fn finish(self, before: &str, behind: &str) -> Result<(), Failure> {
        let failed = |error: &std::io::Error| unwritable(&self.name, error);
        let mut body = self.body.into_inner().map_err(|error| failed(error.error()))?;
        body.rewind().map_err(|error| failed(&error))?;
        let mut whole = before.as_bytes().chain(body).chain(behind.as_bytes());
        write_from(&self.path, &mut whole, &[])
    }
}
