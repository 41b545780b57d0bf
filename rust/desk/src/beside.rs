//! The file of names beside a vocabulary: `v.vocabulary.names` has what the names and roles of `v.vocabulary` are called. Its
//! first line has the SHA-256 of the vocabulary's bytes, so that names are never shown of another vocabulary. A change of
//! the vocabulary by desk keeps the hash of the bytes before it, too: the names fit before and after, whenever the run ends.

use crate::files::{self, unwritten, Access, Digest, FileId, Name, Source};
use crate::notes;
use crate::streams;
use crate::text::names::Names;
use crate::text::quotes::split_comment;
use crate::text::{self, TEXT_BYTES};
use base::sha256::sha256;
use base::vocabulary::Vocabulary;
use base::Failure;
use std::ffi::{OsStr, OsString};
use std::fs;
use std::path::Path;

/// How the first line begins.
const FIRST: [&str; 2] = ["names", "sha256"];

/// A file of names that fits its vocabulary.
pub struct Beside {
    path: OsString,
    bytes: Vec<u8>,
    /// Which file it is.
    pub id: Option<FileId>,
}

impl Beside {
    /// What it is by its bytes.
    pub fn digest(&self) -> Digest {
        Digest {
            sha256: Some(sha256(&self.bytes)),
            bytes: self.bytes.len() as u64,
        }
    }
}

/// Why a file of names is not used.
struct Unused {
    /// The file, with line and column where one is faulty.
    place: String,
    why: String,
    /// Whether it is one, but of other bytes.
    is_misfit: bool,
}

impl Unused {
    fn new(place: impl ToString, why: impl ToString) -> Unused {
        Unused {
            place: place.to_string(),
            why: why.to_string(),
            is_misfit: false,
        }
    }

    /// Notes that it is not used.
    fn note(&self) {
        let Unused { place, why, is_misfit } = self;
        let advice = if *is_misfit {
            "; assemble the text again, or remove the file"
        } else {
            ""
        };
        notes::add(format!("{place}: note: {why}, so that its names are not used{advice}"));
    }
}

/// What came of the file of names where a vocabulary was written.
#[derive(Clone, Copy, Debug, PartialEq, Eq)]
pub enum Kept {
    /// It is written.
    Written,
    /// It stays, since it fits.
    Stays,
    /// It was of other bytes, and is removed.
    Removed,
}

/// The file of names of a vocabulary.
pub fn path_of(vocabulary: &OsStr) -> OsString {
    let mut path = vocabulary.to_os_string();
    path.push(".names");
    path
}

/// Whether something stands at a path, be it a symbolic link that leads nowhere.
fn is_there(path: &OsStr) -> bool {
    fs::symlink_metadata(path).is_ok()
}

/// The names beside a vocabulary of these bytes. That there are some which cannot be used is noted.
pub fn find(vocabulary: &OsStr, bytes: &[u8]) -> Option<(Names, Beside)> {
    let found = read(vocabulary, bytes)?;
    found.inspect_err(Unused::note).ok()
}

/// Reads the names beside a vocabulary, if there are some, or says why they cannot be used.
fn read(vocabulary: &OsStr, bytes: &[u8]) -> Option<Result<(Names, Beside), Unused>> {
    let path = path_of(vocabulary);
    is_there(&path).then(|| {
        let name = Name::new(&path);
        let unreadable = |failure: Failure| {
            let why = failure.message.strip_prefix(&format!("{name}: ")).map(str::to_string);
            Unused::new(&name, why.unwrap_or(failure.message))
        };
        let source = files::read(&path, Access::Regular, TEXT_BYTES, |_| TEXT_BYTES).map_err(unreadable)?;
        let text = files::text_of(&name, source.bytes.clone(), TEXT_BYTES).map_err(unreadable)?;
        let names = fitting(&name, &text, &Name::new(vocabulary), bytes)?;
        let Source { bytes, id, .. } = source;
        Ok((names, Beside { path, bytes, id }))
    })
}

/// The names that a text gives, if they are those of a vocabulary of these bytes.
fn fitting(name: &Name, text: &str, vocabulary: &Name, bytes: &[u8]) -> Result<Names, Unused> {
    let Some(hashes) = hashes(text) else {
        return Err(Unused::new(
            name,
            "does not begin as a file of names, with 'names sha256 ..'",
        ));
    };
    let hash = sha256(bytes);
    if !hashes.iter().any(|fits| fits.eq_ignore_ascii_case(&hash)) {
        let why = format!("is of other bytes than {vocabulary} has");
        return Err(Unused {
            is_misfit: true,
            ..Unused::new(name, why)
        });
    }
    text::names(text, &Vocabulary::read(bytes)).map_err(|fault| {
        let place = format!("{name}:{}:{}", fault.line, fault.column);
        Unused::new(place, fault.message)
    })
}

/// The hashes in the first line of a file of names; nothing where it is none.
fn hashes(text: &str) -> Option<Vec<&str>> {
    let (first, _) = split_comment(text.lines().next()?);
    let mut words = first.split_whitespace();
    let begins = FIRST.iter().all(|word| words.next() == Some(word));
    let hashes: Vec<&str> = words.collect();
    let is_hash = |word: &&str| word.len() == 64 && word.bytes().all(|byte| byte.is_ascii_hexdigit());
    (begins && !hashes.is_empty() && hashes.iter().all(is_hash)).then_some(hashes)
}

/// The first line for these hashes.
fn first_line(hashes: &[&str]) -> String {
    [&FIRST, hashes].concat().join(" ")
}

impl Beside {
    /// Makes the file fit the vocabulary's other bytes, too, which it is to get. It has to be done before: no other run
    /// then finds these bytes and names that do not fit.
    pub fn renew(&self, old_bytes: &[u8], bytes: &[u8]) -> Result<(), Failure> {
        let [old, new] = [old_bytes, bytes].map(sha256);
        let end = self
            .bytes
            .iter()
            .position(|byte| *byte == b'\n')
            .unwrap_or(self.bytes.len());
        let rest = self.bytes.get(end..).unwrap_or_default();
        let renewed = [first_line(&[&new, &old]).as_bytes(), rest].concat();
        files::renew(&self.path, &self.bytes, &renewed)
    }
}

/// Whether names can be kept beside an output: a regular file, or none yet.
fn is_kept(output: &OsStr) -> bool {
    let is_file = fs::metadata(output).map_or(true, |about| about.is_file());
    is_file && !streams::is_descriptor(Path::new(output))
}

/// That the names of a text are not written, since there is no file beside which they could be.
pub fn note_unwritten(names: &Names) {
    if !names.is_empty() {
        notes::add("note: what names and roles are called is not written; it is kept beside a file only".to_string());
    }
}

/// Says why names could not be written beside an output, before that is written.
pub fn check(output: &OsStr, names: &Names, inputs: &[Option<FileId>]) -> Result<(), Failure> {
    if names.is_empty() || !is_kept(output) {
        return Ok(());
    }
    let path = path_of(output);
    let [id, itself] = [&path, output].map(|path| fs::metadata(path).ok().as_ref().and_then(FileId::of));
    if id.is_some() && id == itself {
        let why = format!("is {} itself, beside which names are kept", Name::new(output));
        return Err(unwritten(&Name::new(&path), &why));
    }
    files::check(&path, inputs)
}

/// Keeps names beside an output of these bytes, which is written.
pub fn keep(output: &OsStr, bytes: &[u8], names: &Names, inputs: &[Option<FileId>]) -> Result<Option<Kept>, Failure> {
    if !is_kept(output) {
        note_unwritten(names);
        return Ok(None);
    }
    if names.is_empty() {
        return tidy(output, bytes, inputs);
    }
    check(output, names, inputs)?;
    let text = format!("{}\n{}", first_line(&[&sha256(bytes)]), names.lines());
    files::write(&path_of(output), text.as_bytes(), inputs)?;
    Ok(Some(Kept::Written))
}

/// Looks after the names beside an output that has none. Those of other bytes would be told as such by every command: they
/// are removed.
fn tidy(output: &OsStr, bytes: &[u8], inputs: &[Option<FileId>]) -> Result<Option<Kept>, Failure> {
    let path = path_of(output);
    match read(output, bytes) {
        None => Ok(None),
        Some(Ok(_)) => Ok(Some(Kept::Stays)),
        Some(Err(unused)) if unused.is_misfit && is_own_file(&path, inputs) => {
            let why = |error| format!("cannot be removed ({})", files::reason(&error));
            let removed = fs::remove_file(&path).map_err(|error| unwritten(&Name::new(&path), &why(error)));
            removed.map(|()| Some(Kept::Removed))
        }
        Some(Err(unused)) => {
            unused.note();
            Ok(None)
        }
    }
}

/// Whether a path is a file's own name, and no input's.
fn is_own_file(path: &OsStr, inputs: &[Option<FileId>]) -> bool {
    let about = fs::symlink_metadata(path).ok();
    let id = about.as_ref().and_then(FileId::of);
    id.is_some() && !inputs.contains(&id)
}
