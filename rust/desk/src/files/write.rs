//! Writing files.

use super::replace::{self, replace};
use super::{reason, FileId, Name};
use crate::streams;
use base::{Failure, Status};
use std::ffi::OsStr;
use std::fs::{self, File, Metadata};
use std::io::{self, ErrorKind, Read};
use std::os::unix::ffi::OsStrExt;
use std::path::{Path, PathBuf};

/// The most symbolic links that one name leads through; the kernel has the same limit.
const LINKS: usize = 40;
/// Why an input is not written.
pub const INPUT: &str = "is an input, and stays as it is";
/// Why a file that is there is not made.
pub const EXISTS: &str = "is there already, and stays as it is";

/// Writes a file, but never one of the inputs. A regular file is replaced by a whole new one, or stays as it was; what is
/// no regular file, and an open descriptor (`/dev/stdout`), is written to. Symbolic links are followed.
pub fn write(path: &OsStr, bytes: &[u8], inputs: &[Option<FileId>]) -> Result<(), Failure> {
    write_from(path, &mut &*bytes, inputs)
}

/// The same of all that a source has, of which no more than a part is in memory.
pub fn write_from(path: &OsStr, source: &mut dyn Read, inputs: &[Option<FileId>]) -> Result<(), Failure> {
    let (name, path) = (Name::new(path), Path::new(path));
    let end = follow(path);
    let about = look(&name, path, &end)?;
    let id = about.as_ref().and_then(FileId::of);
    if id.is_some() && inputs.contains(&id) {
        return Err(unwritten(&name, INPUT));
    }
    match about {
        None if streams::is_descriptor(&end) => Err(unwritten(&name, "is not open")),
        Some(about) if !about.is_file() || streams::is_descriptor(&end) => {
            let written = open_in_place(&end, &about).and_then(|file| fill(&file, source));
            written.map_err(|error| unwritten(&name, &format!("cannot be written ({})", reason(&error))))
        }
        _ => replace(&name, &end, source),
    }
}

/// Says why a path could not be written, before anything is: what stands there is an input, or is no regular file, or may
/// not be written.
pub fn check(path: &OsStr, inputs: &[Option<FileId>]) -> Result<(), Failure> {
    let (name, path) = (Name::new(path), Path::new(path));
    let end = follow(path);
    match look(&name, path, &end)? {
        None => Ok(()),
        Some(about) if !about.is_file() => Err(unwritten(&name, "is no regular file")),
        Some(about) if inputs.contains(&FileId::of(&about)) => Err(unwritten(&name, INPUT)),
        Some(_) => replace::old_file(&end)
            .map(|_| ())
            .map_err(|error| unwritable(&name, &error)),
    }
}

/// Makes a file, but never in the place of another.
pub fn create(path: &OsStr, bytes: &[u8]) -> Result<(), Failure> {
    let (name, path) = (Name::new(path), Path::new(path));
    let end = follow(path);
    match look(&name, path, &end)? {
        Some(_) => Err(unwritten(&name, EXISTS)),
        None if streams::is_descriptor(&end) => Err(unwritten(&name, "is not open")),
        None => replace::create(&name, &end, &mut &*bytes),
    }
}

/// Replaces a regular file, which was read and had the old bytes, by a whole new one, or lets it stay as it is.
pub fn renew(path: &OsStr, old_bytes: &[u8], bytes: &[u8]) -> Result<(), Failure> {
    let (name, path) = (Name::new(path), Path::new(path));
    let end = follow(path);
    look(&name, path, &end)?;
    if streams::is_descriptor(&end) {
        return Err(unwritten(&name, "is an open descriptor, and no file's own name"));
    }
    replace::renew(&name, &end, old_bytes, &mut &*bytes)
}

/// What stands at a path, which leads to `end`, if anything does. What can be no file is refused.
pub fn look(name: &Name, path: &Path, end: &Path) -> Result<Option<Metadata>, Failure> {
    match fs::metadata(path) {
        Ok(about) if about.is_dir() => Err(unwritten(name, "is a directory, not a file")),
        Ok(about) => Ok(Some(about)),
        Err(_) if path.as_os_str().is_empty() => Err(unwritten(name, "is no name of a file")),
        Err(_) if names_directory(end) => Err(unwritten(name, "names a directory, not a file")),
        Err(error) if error.kind() == ErrorKind::NotFound => Ok(None),
        Err(error) => Err(unwritable(name, &error)),
    }
}

/// Whether a path can be a directory's only, since its last name is empty.
fn names_directory(path: &Path) -> bool {
    path.as_os_str().as_bytes().ends_with(b"/")
}

/// The path to which symbolic links lead; there need not be a file. That of an open descriptor is the descriptor's.
pub fn follow(path: &Path) -> PathBuf {
    let mut path = path.to_path_buf();
    for _ in 0..LINKS {
        match fs::read_link(&path) {
            Ok(target) if !streams::is_descriptor(&path) => path = directory(&path).join(target),
            _ => break,
        }
    }
    path
}

/// The directory in which a path's last name stands. `Path::parent` takes `x/.` for `x`, and so would answer another.
pub fn directory(path: &Path) -> PathBuf {
    let bytes = path.as_os_str().as_bytes();
    let end = bytes.iter().rposition(|byte| *byte == b'/');
    let parent = end.and_then(|end| bytes.get(..=end)).unwrap_or(b".");
    PathBuf::from(OsStr::from_bytes(parent))
}

/// Opens what is no regular file, or a descriptor. Of a descriptor that leads to a regular file nothing is cut off.
fn open_in_place(path: &Path, about: &Metadata) -> io::Result<File> {
    if streams::is_output(path) {
        return streams::output();
    }
    File::options().write(true).append(about.is_file()).open(path)
}

/// Writes all that a source has, and waits until it is where it belongs, since closing a file tells no errors.
pub fn fill(mut file: &File, source: &mut dyn Read) -> io::Result<()> {
    io::copy(source, &mut file)?;
    match file.sync_all() {
        // What cannot be asked for that: a pipe, a terminal, most devices.
        Err(error) if matches!(error.kind(), ErrorKind::InvalidInput | ErrorKind::Unsupported) => Ok(()),
        synced => synced,
    }
}

/// An output that is not written.
pub fn unwritten(name: &Name, why: &str) -> Failure {
    Failure::new(Status::NoOutput, format!("{name}: {why}"))
}

/// Why a file cannot be written.
pub fn unwritable(name: &Name, error: &io::Error) -> Failure {
    let why = match error.kind() {
        ErrorKind::NotFound | ErrorKind::NotADirectory => "there is no such directory".to_string(),
        ErrorKind::PermissionDenied => "may not be written (permission denied)".to_string(),
        ErrorKind::IsADirectory => "is a directory, not a file".to_string(),
        _ => format!("cannot be written ({})", reason(error)),
    };
    unwritten(name, &why)
}
