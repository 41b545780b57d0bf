//! Replacing a file at once: a new one is made beside it and takes its name when all of it is there, so that nobody ever
//! finds a part of it, and the old one stays where anything fails.

use super::write::{directory, fill, unwritable, unwritten, EXISTS};
use super::Name;
use crate::signals;
use base::{Failure, Status};
use std::fs::{self, File, Metadata, Permissions};
use std::io::{self, ErrorKind, Read};
use std::os::unix::fs::{fchown, MetadataExt, OpenOptionsExt, PermissionsExt};
use std::path::{Path, PathBuf};

/// The most names that are tried for the new file. One is taken only where a run with the same process number was killed,
/// or runs in another container.
const NAMES: u32 = 1000;
/// The mode of a new file before the caller's umask.
const NEW_MODE: u32 = 0o666;
/// The mode of a file that takes another's place, until it gets that one's.
const PRIVATE_MODE: u32 = 0o600;
/// What is kept of a mode; the other bits are lost at any write.
const PERMISSIONS: u32 = 0o777;

/// Puts a file of what a source has at a path, where there is a regular file or none.
pub fn replace(name: &Name, path: &Path, source: &mut dyn Read) -> Result<(), Failure> {
    let old = old_file(path).map_err(|error| unwritable(name, &error))?;
    put(name, path, source, old.as_ref(), |temporary| {
        temporary.rename(name, path)
    })
}

/// Puts a file of what a source has at a path where there is none. One that comes there meanwhile stays as it is.
pub fn create(name: &Name, path: &Path, source: &mut dyn Read) -> Result<(), Failure> {
    put(name, path, source, None, |temporary| temporary.link(name, path))
}

/// Puts a file of what a source has in the place of one that was read and had the old ones. One that has others by now, since
/// some program has written to it, stays as it is: what that has written would be lost.
pub fn renew(name: &Name, path: &Path, old_bytes: &[u8], source: &mut dyn Read) -> Result<(), Failure> {
    let old = old_file(path).map_err(|error| unwritable(name, &error))?;
    put(name, path, source, old.as_ref(), |temporary| {
        if fs::read(path).is_ok_and(|now| now == old_bytes) {
            temporary.rename(name, path)
        } else {
            Err(unwritten(name, "has changed since it was read, and stays as it is"))
        }
    })
}

/// Makes a file of what a source has beside a path, in the place of the old one if there is one, and lets it take its name.
fn put(
    name: &Name,
    path: &Path,
    source: &mut dyn Read,
    old: Option<&Metadata>,
    take_name: impl FnOnce(Temporary) -> Result<(), Failure>,
) -> Result<(), Failure> {
    let _catching = signals::catch();
    let directory = directory(path);
    let temporary = Temporary::beside(name, &directory, old)?;
    stop_if_caught(name)?;
    let filled = temporary.take_after(old).and_then(|()| fill(&temporary.file, source));
    filled.map_err(|error| unwritable(name, &error))?;
    stop_if_caught(name)?;
    take_name(temporary)?;
    // The file is whole, under the old name or the new, whether or not the directory can be waited for.
    let _ = File::open(directory).and_then(|directory| directory.sync_all());
    Ok(())
}

/// What is known of the old file, if there is one. It has to be one that may be written, though it is not written to.
pub fn old_file(path: &Path) -> io::Result<Option<Metadata>> {
    match File::options().write(true).open(path) {
        Ok(file) => file.metadata().map(Some),
        Err(error) if error.kind() == ErrorKind::NotFound => Ok(None),
        Err(error) => Err(error),
    }
}

/// Ends the run where a signal has asked for that.
fn stop_if_caught(name: &Name) -> Result<(), Failure> {
    if signals::caught() {
        let message = format!("{name}: is not written, since a signal ended the run");
        return Err(Failure::new(Status::Interrupted, message));
    }
    Ok(())
}

/// A file that is being made. It is removed, unless it gets its name.
pub struct Temporary {
    path: PathBuf,
    /// The file, open for writing and reading.
    pub file: File,
    renamed: bool,
}

impl Temporary {
    /// A new empty file in the directory of an output, in whose name it is told where none can be made.
    pub fn beside(name: &Name, directory: &Path, old: Option<&Metadata>) -> Result<Temporary, Failure> {
        Temporary::new(directory, old).map_err(|error| match error.kind() {
            ErrorKind::PermissionDenied => unwritten(name, "its directory may not be written to (permission denied)"),
            _ => unwritable(name, &error),
        })
    }

    /// A new empty file, whose name is short whatever the output's is.
    fn new(directory: &Path, old: Option<&Metadata>) -> io::Result<Temporary> {
        let mode = if old.is_some() { PRIVATE_MODE } else { NEW_MODE };
        for number in 0..NAMES {
            let path = directory.join(format!(".desk-{}-{number}", std::process::id()));
            let mut options = File::options();
            match options.read(true).write(true).create_new(true).mode(mode).open(&path) {
                Err(error) if error.kind() == ErrorKind::AlreadyExists => {}
                opened => {
                    return opened.map(|file| Temporary {
                        path,
                        file,
                        renamed: false,
                    })
                }
            }
        }
        Err(ErrorKind::AlreadyExists.into())
    }

    /// Takes the old file's mode, and its owner and group as far as the caller may give files away.
    fn take_after(&self, old: Option<&Metadata>) -> io::Result<()> {
        let Some(old) = old else { return Ok(()) };
        let (owner, group) = (old.uid(), old.gid());
        if fchown(&self.file, Some(owner), Some(group)).is_err() {
            let _ = fchown(&self.file, None, Some(group));
        }
        let mode = old.mode() & PERMISSIONS;
        self.file.set_permissions(Permissions::from_mode(mode))
    }

    /// Takes a name, which another file may have.
    fn rename(mut self, name: &Name, path: &Path) -> Result<(), Failure> {
        fs::rename(&self.path, path).map_err(|error| match error.kind() {
            ErrorKind::PermissionDenied => unwritten(name, "may not be replaced (permission denied)"),
            _ => unwritable(name, &error),
        })?;
        self.renamed = true;
        Ok(())
    }

    /// Takes a name that no other file has. On a file system without links it is renamed: a moment ago nothing was there.
    fn link(self, name: &Name, path: &Path) -> Result<(), Failure> {
        match fs::hard_link(&self.path, path) {
            Ok(()) => Ok(()),
            Err(error) if error.kind() == ErrorKind::AlreadyExists => Err(unwritten(name, EXISTS)),
            Err(_) => self.rename(name, path),
        }
    }
}

impl Drop for Temporary {
    fn drop(&mut self) {
        if !self.renamed {
            // Where even that fails there is nothing more to do; the output itself is as it was.
            let _ = fs::remove_file(&self.path);
        }
    }
}

#[cfg(test)]
mod tests {
    #![allow(clippy::unwrap_used)]

    use super::{create, renew};
    use crate::files::Name;
    use std::fs;

    /// A file is renewed where it has the bytes that were read, and made where none is; else it stays.
    #[test]
    fn what_another_program_has_written_stays() {
        let directory = std::env::temp_dir().join(format!("desk-renew-{}", std::process::id()));
        fs::create_dir_all(&directory).unwrap();
        let path = directory.join("x");
        let name = Name::new("x".as_ref());
        create(&name, &path, &mut &b"old"[..]).unwrap();
        let there = create(&name, &path, &mut &b"new"[..]).unwrap_err();
        assert_eq!(there.message, "x: is there already, and stays as it is");
        renew(&name, &path, b"old", &mut &b"new"[..]).unwrap();
        let changed = renew(&name, &path, b"old", &mut &b"newer"[..]).unwrap_err();
        assert_eq!(changed.message, "x: has changed since it was read, and stays as it is");
        assert_eq!(fs::read(&path).unwrap(), b"new");
        assert_eq!(fs::read_dir(&directory).unwrap().count(), 1);
        fs::remove_dir_all(&directory).unwrap();
    }
}
