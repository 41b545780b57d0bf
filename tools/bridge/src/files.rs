//! Files and directories, and the failures that they are.

use std::fs::{self, File};
use std::io::{self, Read};
use std::path::{Path, PathBuf};

use base::vocabulary::Vocabulary;
use base::{Failure, Status};

/// Reads a vocabulary that the library accepts. Of a file that is too long no more is read than shows it.
pub fn read_vocabulary(path: &Path) -> Result<Vocabulary, Failure> {
    let mut bytes = Vec::new();
    let most = judge::VOCABULARY_BYTES as u64 + 1;
    File::open(path)
        .and_then(|file| file.take(most).read_to_end(&mut bytes))
        .map_err(|error| failure(Status::NoInput, path, &error))?;
    match judge::check_vocabulary(&bytes) {
        Ok(_) => Ok(Vocabulary::read(&bytes)),
        Err(refusal) => Err(Failure::new(Status::Refused, format!("{}: {refusal}", path.display()))),
    }
}

/// Reads a text.
pub fn read(path: &Path) -> Result<String, Failure> {
    fs::read_to_string(path).map_err(|error| failure(Status::NoInput, path, &error))
}

/// Writes a file.
pub fn write(path: &Path, content: impl AsRef<[u8]>) -> Result<(), Failure> {
    fs::write(path, content).map_err(|error| failure(Status::NoOutput, path, &error))
}

/// Makes a directory, and those it is in.
pub fn create(directory: &Path) -> Result<(), Failure> {
    fs::create_dir_all(directory).map_err(|error| failure(Status::NoOutput, directory, &error))
}

fn failure(status: Status, path: &Path, error: &io::Error) -> Failure {
    Failure::new(status, format!("{}: {error}", path.display()))
}

/// A directory that goes when this does.
pub struct Scratch(PathBuf);

impl Scratch {
    /// A new directory among those of the system.
    pub fn new() -> Result<Scratch, Failure> {
        let path = std::env::temp_dir().join(format!("bridge-{}", std::process::id()));
        create(&path)?;
        Ok(Scratch(path))
    }

    /// A path in it.
    pub fn file(&self, name: &str) -> PathBuf {
        self.0.join(name)
    }
}

impl Drop for Scratch {
    fn drop(&mut self) {
        let _ = fs::remove_dir_all(&self.0);
    }
}
