//! Reading and writing files, with a plain message for whatever is wrong.

mod draft;
mod lock;
mod replace;
mod write;

pub use draft::Draft;
pub use write::{check, create, renew, unwritten, write};

use crate::display::{grouped, plain};
use crate::streams;
use base::sha256::sha256;
use base::{Failure, Status};
use std::ffi::OsStr;
use std::fmt;
use std::fs::{File, Metadata};
use std::io::{self, ErrorKind, Read};
use std::os::unix::fs::MetadataExt;
use std::path::Path;
use std::sync::atomic::{AtomicBool, Ordering};

/// The name of a file. Printed, it has no characters that a terminal would follow; `-` is standard input.
#[derive(Clone, Debug)]
pub struct Name(String);

impl Name {
    /// The name of a path; what is no UTF-8 in it is replaced.
    pub fn new(path: &OsStr) -> Name {
        Name(path.to_string_lossy().into_owned())
    }

    /// The name as it is, for programs.
    pub fn as_str(&self) -> &str {
        &self.0
    }
}

impl fmt::Display for Name {
    fn fmt(&self, out: &mut fmt::Formatter<'_>) -> fmt::Result {
        match self.as_str() {
            "-" => out.write_str("standard input"),
            "" => out.write_str("''"),
            name => out.write_str(&plain(name)),
        }
    }
}

/// Which regular file an input is, whatever its name.
#[derive(Clone, Copy, Debug, PartialEq, Eq)]
pub struct FileId {
    device: u64,
    inode: u64,
}

impl FileId {
    /// That of a regular file.
    pub fn of(about: &Metadata) -> Option<FileId> {
        about.is_file().then(|| FileId {
            device: about.dev(),
            inode: about.ino(),
        })
    }
}

/// Which files may be read.
#[derive(Clone, Copy, Debug, PartialEq, Eq)]
pub enum Access {
    /// Any, and standard input by `-`.
    Any,
    /// Regular files only; `-` is a file's name.
    Regular,
}

/// The bytes of a file.
pub struct Source {
    /// The name by which messages call it.
    pub name: Name,
    /// Its bytes, but never more than one over the limit.
    pub bytes: Vec<u8>,
    /// Its length.
    pub length: Length,
    /// Which file it is, if it is a regular one.
    pub id: Option<FileId>,
}

/// A file by what it has: which bytes these are, and how many.
#[derive(Clone, Debug, PartialEq, Eq)]
pub struct Digest {
    /// The SHA-256; nothing where the file is too large to be read whole.
    pub sha256: Option<String>,
    /// How many bytes it has, or at least.
    pub bytes: u64,
}

impl Source {
    /// What it is by its bytes.
    pub fn digest(&self) -> Digest {
        Digest {
            sha256: self.whole().map(sha256),
            bytes: self.length.bytes,
        }
    }

    /// The bytes, where they are all that the file has.
    pub fn whole(&self) -> Option<&[u8]> {
        let is_whole = !self.length.cut && self.length.bytes == self.bytes.len() as u64;
        is_whole.then_some(self.bytes.as_slice())
    }
}

/// How long a file is.
#[derive(Clone, Copy, Debug)]
pub struct Length {
    bytes: u64,
    /// Whether there may be more bytes, which were not read.
    cut: bool,
}

impl Length {
    /// Of bytes that are all there is.
    pub fn of(bytes: &[u8]) -> Length {
        Length {
            bytes: bytes.len() as u64,
            cut: false,
        }
    }
}

impl fmt::Display for Length {
    fn fmt(&self, out: &mut fmt::Formatter<'_>) -> fmt::Result {
        let least = if self.cut { "at least " } else { "" };
        let plural = if self.bytes == 1 { "" } else { "s" };
        write!(out, "it has {least}{} byte{plural}", grouped(self.bytes))
    }
}

/// A file that is open for reading.
pub struct Opened {
    /// The name by which messages call it.
    pub name: Name,
    /// Which file it is, if it is a regular one.
    pub id: Option<FileId>,
    /// Its length, if it is a regular one.
    pub length: Option<u64>,
    source: File,
}

impl Read for Opened {
    fn read(&mut self, buffer: &mut [u8]) -> io::Result<usize> {
        self.source.read(buffer)
    }
}

/// Opens a file for reading.
pub fn open(path: &OsStr, access: Access) -> Result<Opened, Failure> {
    if path == "-" && access == Access::Any {
        return open_standard_input();
    }
    let name = Name::new(path);
    // In place of a closed standard input there is /dev/null by now.
    if streams::is_input(Path::new(path)) {
        streams::input().map_err(|error| unreadable(&name, &error))?;
    }
    // A named pipe would wait for a writer, so it is looked at before it is opened.
    if access == Access::Regular {
        let about = std::fs::metadata(path).map_err(|error| unreadable(&name, &error))?;
        check_sort(&name, &about, access)?;
    }
    let file = File::open(path).map_err(|error| unreadable(&name, &error))?;
    let about = file.metadata().map_err(|error| unreadable(&name, &error))?;
    check_sort(&name, &about, access)?;
    Ok(Opened {
        name,
        id: FileId::of(&about),
        length: about.is_file().then_some(about.len()),
        source: file,
    })
}

/// Opens a regular file that is to be changed. As long as it is open, other runs that change it wait.
pub fn open_to_change(path: &OsStr) -> Result<Opened, Failure> {
    loop {
        let opened = open(path, Access::Regular)?;
        lock::wait(&opened.source);
        // The run that was waited for has put another file in its place.
        let now = std::fs::metadata(path).ok();
        if now.as_ref().and_then(FileId::of) == opened.id {
            return Ok(opened);
        }
    }
}

/// Refuses what may not be read: a directory, and what is no regular file where only those may be.
fn check_sort(name: &Name, about: &Metadata, access: Access) -> Result<(), Failure> {
    let why = if about.is_dir() {
        "is a directory, not a file"
    } else if access == Access::Regular && !about.is_file() {
        "is no regular file"
    } else {
        return Ok(());
    };
    Err(Failure::new(Status::NoInput, format!("{name}: {why}")))
}

/// Standard input, which can be read just once.
fn open_standard_input() -> Result<Opened, Failure> {
    static TAKEN: AtomicBool = AtomicBool::new(false);
    if TAKEN.swap(true, Ordering::Relaxed) {
        return Err(Failure::usage("'-', standard input, can be given just once"));
    }
    let name = Name("-".to_string());
    let file = streams::input().map_err(|error| unreadable(&name, &error))?;
    let about = file.metadata().map_err(|error| unreadable(&name, &error))?;
    check_sort(&name, &about, Access::Any)?;
    Ok(Opened {
        name,
        id: FileId::of(&about),
        length: None,
        source: file,
    })
}

/// Reads at most as many bytes as the limit of what it begins with, and one more, so that a longer file shows as such. A
/// limit is that of a file which begins with these bytes, of which there are at most `first` and one.
pub fn read(path: &OsStr, access: Access, first: usize, limit: impl Fn(&[u8]) -> usize) -> Result<Source, Failure> {
    read_opened(&mut open(path, access)?, first, limit)
}

/// The same of a file that is open.
pub fn read_opened(opened: &mut Opened, first: usize, limit: impl Fn(&[u8]) -> usize) -> Result<Source, Failure> {
    let mut bytes = Vec::new();
    let mut take = |most: usize, bytes: &mut Vec<u8>| {
        let more = (most + 1).saturating_sub(bytes.len()) as u64;
        opened.by_ref().take(more).read_to_end(bytes)
    };
    let most = take(first, &mut bytes).map(|_| limit(&bytes));
    let read = most.and_then(|most| take(most, &mut bytes).map(|_| most));
    let (name, id, known) = (opened.name.clone(), opened.id, opened.length);
    let most = read.map_err(|error| unreadable(&name, &error))?;
    let mut length = Length::of(&bytes);
    if bytes.len() > most {
        length.cut = known.is_none();
        length.bytes = known.unwrap_or(0).max(length.bytes);
    }
    Ok(Source {
        name,
        bytes,
        length,
        id,
    })
}

/// The text that a file is; one that is none or has more than `limit` bytes is a failure. A byte order mark is no part of
/// it.
pub fn text_of(name: &Name, bytes: Vec<u8>, limit: usize) -> Result<String, Failure> {
    let failure = |why: String| Failure::new(Status::NoInput, format!("{name}: {why}"));
    if bytes.len() > limit {
        let most = grouped(limit as u64);
        return Err(failure(format!("too large; a text has at most {most} bytes")));
    }
    if bytes.contains(&0) {
        return Err(failure("is no text (it has bytes that are 0)".to_string()));
    }
    let text = String::from_utf8(bytes).map_err(|_| failure("is no text (not UTF-8)".to_string()))?;
    Ok(match text.strip_prefix('\u{feff}') {
        Some(rest) => rest.to_string(),
        None => text,
    })
}

/// Why a file cannot be read.
pub fn unreadable(name: &Name, error: &io::Error) -> Failure {
    let why = match error.kind() {
        ErrorKind::NotFound => "there is no such file".to_string(),
        ErrorKind::PermissionDenied => "may not be read (permission denied)".to_string(),
        ErrorKind::IsADirectory => "is a directory, not a file".to_string(),
        _ => format!("cannot be read ({})", reason(error)),
    };
    Failure::new(Status::NoInput, format!("{name}: {why}"))
}

/// An error of the system as a part of a sentence, without its number.
pub fn reason(error: &io::Error) -> String {
    let text = error.to_string();
    let words = text.split_once(" (os error").map_or(text.as_str(), |(words, _)| words);
    let mut letters = words.chars();
    let first = letters.next().map(|letter| letter.to_ascii_lowercase());
    first.into_iter().chain(letters).collect()
}
