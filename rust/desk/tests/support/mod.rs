//! What the tests of the command share: a directory of its own for each test, and desk on the path of a shell.

#![allow(dead_code, clippy::unwrap_used)]

pub mod help;

use std::ffi::OsString;
use std::fs;
use std::path::{Path, PathBuf};
use std::process::{Command, Stdio};

/// The root of the repository.
pub fn root() -> PathBuf {
    Path::new(env!("CARGO_MANIFEST_DIR"))
        .join("../..")
        .canonicalize()
        .unwrap()
}

/// A new directory, in which a test runs its commands.
pub struct Place {
    /// The directory.
    pub directory: PathBuf,
}

/// Where a test passed, its directory goes: some have links in it, and `rt ci` refuses a checkout that has any.
impl Drop for Place {
    fn drop(&mut self) {
        if !std::thread::panicking() {
            let _ = fs::remove_dir_all(&self.directory);
        }
    }
}

impl Place {
    /// An empty directory of this name.
    pub fn new(name: &str) -> Place {
        let directory = Path::new(env!("CARGO_TARGET_TMPDIR")).join(name);
        let _ = fs::remove_dir_all(&directory);
        fs::create_dir_all(&directory).unwrap();
        Place { directory }
    }

    /// A file in it.
    pub fn file(&self, name: &str) -> PathBuf {
        self.directory.join(name)
    }

    /// A shell that runs these words in it; the first word after `desk` on its path is the command that is tested.
    pub fn shell(&self, words: &str) -> Command {
        let mut path = OsString::from(Path::new(env!("CARGO_BIN_EXE_desk")).parent().unwrap());
        path.push(":");
        path.push(std::env::var_os("PATH").unwrap_or_default());
        let mut command = Command::new("sh");
        command
            .args(["-c", words])
            .current_dir(&self.directory)
            .env("PATH", path)
            .env("EXAMPLES", root().join("examples"))
            .env_remove("NO_COLOR")
            .stdin(Stdio::null());
        command
    }

    /// What words print, both streams together as they come, and the exit status.
    pub fn said(&self, words: &str) -> (String, i32) {
        let path = self.directory.with_extension("said");
        let out = fs::File::create(&path).unwrap();
        let status = self
            .shell(words)
            .stdout(out.try_clone().unwrap())
            .stderr(out)
            .status()
            .unwrap();
        let said = String::from_utf8_lossy(&fs::read(&path).unwrap()).into_owned();
        (said, status.code().unwrap_or(-1))
    }
}
