//! What tests of the command `desk` share: directories of their own, runs, signals.

#![allow(clippy::unwrap_used)]

#[path = "signals.rs"]
mod signals;

pub use signals::{heed_signals, HANGUP, INTERRUPT, TERMINATE};

use std::ffi::OsStr;
use std::fs;
use std::io::Write;
use std::os::unix::fs::{chown, MetadataExt, PermissionsExt};
use std::os::unix::process::{CommandExt, ExitStatusExt};
use std::path::{Path, PathBuf};
use std::process::{Child, Command, ExitStatus, Output, Stdio};
use std::time::{Duration, Instant};

/// The longest that a run which should end at once is waited for.
const PATIENCE: Duration = Duration::from_secs(10);

/// SIGKILL.
pub const KILL: i32 = 9;

/// The user and group who run `desk` where the tests are run by root: a faulty `desk` could replace the files of /dev, and
/// permissions would not bind it.
const NOBODY: u32 = 65534;

/// A new directory, which is removed in the end, and who runs `desk` in it.
pub struct Place {
    /// What is removed.
    root: PathBuf,
    files: PathBuf,
    desk: PathBuf,
    bound: bool,
}

impl Place {
    /// A directory in which `desk` is run by a user who is not root.
    pub fn new(name: &str) -> Place {
        if !is_root() {
            return Place::of_caller(name);
        }
        // Where any user comes, with a copy of `desk`. It is made by another process, since a file that a process of
        // this one has open for writing cannot be run.
        let mut place = Place::within(&std::env::temp_dir(), name);
        let copy = place.root.join("desk");
        let copied = Command::new("cp").arg(&place.desk).arg(&copy).status().unwrap();
        assert!(copied.success());
        set_mode(&copy, 0o755);
        place.desk = copy;
        place.bound = true;
        place.give(&place.files);
        place
    }

    /// A directory in which `desk` is run by the caller, be it root. No output may lie outside.
    pub fn of_caller(name: &str) -> Place {
        Place::within(Path::new(env!("CARGO_TARGET_TMPDIR")), name)
    }

    fn within(parent: &Path, name: &str) -> Place {
        let root = parent.join(format!("desk-{name}-{}", std::process::id()));
        let files = root.join("files");
        let _ = fs::remove_dir_all(&root);
        fs::create_dir_all(&files).unwrap();
        set_mode(&root, 0o755);
        set_mode(&files, 0o755);
        Place {
            root,
            files,
            desk: env!("CARGO_BIN_EXE_desk").into(),
            bound: false,
        }
    }

    /// Gives a file to the user who runs `desk`.
    pub fn give(&self, path: &Path) {
        if self.bound {
            chown(path, Some(NOBODY), Some(NOBODY)).unwrap();
        }
    }

    /// The path of a name in it.
    pub fn path(&self, name: &str) -> PathBuf {
        self.files.join(name)
    }

    /// Makes a file, which belongs to the user who runs `desk`.
    pub fn put(&self, name: &str, bytes: impl AsRef<[u8]>) -> PathBuf {
        let path = self.path(name);
        fs::write(&path, bytes).unwrap();
        self.give(&path);
        path
    }

    /// The bytes of a file.
    pub fn get(&self, name: &str) -> Vec<u8> {
        fs::read(self.path(name)).unwrap()
    }

    /// The names of all that is in it.
    pub fn names(&self) -> Vec<String> {
        names(&self.files)
    }

    /// Whether a file that is being made, or was left behind, is in it.
    pub fn has_temporary(&self) -> bool {
        self.names().iter().any(|name| name.starts_with(".desk-"))
    }

    /// Makes a directory, which belongs to the user who runs `desk`.
    pub fn put_directory(&self, name: &str) -> PathBuf {
        let path = self.path(name);
        fs::create_dir(&path).unwrap();
        self.give(&path);
        path
    }

    /// `desk` in this directory.
    pub fn desk<S: AsRef<OsStr>>(&self, words: impl IntoIterator<Item = S>) -> Command {
        let mut command = self.command(&self.desk);
        command.args(words);
        command
    }

    /// A shell's line in this directory, in which `desk` is `"$@"` with these words.
    pub fn shell(&self, line: &str, words: &[&str]) -> Command {
        let mut command = self.command("sh");
        command.args(["-c", line, "sh"]).arg(&self.desk).args(words);
        command
    }

    /// A program in this directory, run by who runs `desk`.
    pub fn command(&self, program: impl AsRef<OsStr>) -> Command {
        let mut command = Command::new(program);
        command.current_dir(&self.files);
        heed_signals(&mut command);
        if self.bound {
            command.uid(NOBODY).gid(NOBODY);
        }
        command
    }
}

impl Drop for Place {
    fn drop(&mut self) {
        let _ = fs::remove_dir_all(&self.root);
    }
}

/// The names of all that is in a directory, in order.
pub fn names(directory: &Path) -> Vec<String> {
    let entries = fs::read_dir(directory).unwrap();
    let mut names: Vec<String> = entries
        .map(|entry| entry.unwrap().file_name().to_string_lossy().into_owned())
        .collect();
    names.sort();
    names
}

/// The permissions of a file.
pub fn mode(path: &Path) -> u32 {
    fs::metadata(path).unwrap().mode() & 0o7777
}

/// Sets the permissions of a file.
pub fn set_mode(path: &Path, mode: u32) {
    fs::set_permissions(path, fs::Permissions::from_mode(mode)).unwrap();
}

/// Whether the tests are run by root, whom permissions do not bind.
pub fn is_root() -> bool {
    fs::metadata("/proc/self").unwrap().uid() == 0
}

/// Says, past the harness, that something could not be tested here.
pub fn skipped(what: &str) {
    let _ = writeln!(std::io::stderr(), "skipped: {what}");
}

/// How a run came out.
#[derive(Debug, PartialEq, Eq)]
pub struct Said {
    /// The exit status; nothing where a signal ended the run.
    pub status: Option<i32>,
    /// Standard output.
    pub out: Vec<u8>,
    /// Standard error.
    pub err: String,
}

impl From<Output> for Said {
    fn from(output: Output) -> Said {
        Said {
            status: output.status.code(),
            out: output.stdout,
            err: String::from_utf8(output.stderr).unwrap(),
        }
    }
}

/// Runs a command to its end, with nothing on standard input.
pub fn run(command: &mut Command) -> Said {
    command.stdin(Stdio::null()).output().unwrap().into()
}

/// Runs a command to its end, with these bytes on standard input.
pub fn run_with(command: &mut Command, bytes: &[u8]) -> Said {
    let mut child = start(command);
    child.stdin.take().unwrap().write_all(bytes).unwrap();
    child.wait_with_output().unwrap().into()
}

/// Starts a command, all of whose streams are pipes.
pub fn start(command: &mut Command) -> Child {
    let command = command.stdin(Stdio::piped()).stdout(Stdio::piped());
    command.stderr(Stdio::piped()).spawn().unwrap()
}

/// Sends a signal to a run that has not been waited for.
pub fn send(child: &Child, signal: i32) {
    extern "C" {
        fn kill(process: i32, signal: i32) -> i32;
    }
    // SAFETY: takes two numbers; the process is a child that was not waited for, so its number is no other's.
    let sent = unsafe { kill(child.id().try_into().unwrap(), signal) };
    assert_eq!(sent, 0);
}

/// The end of a run that ends soon; one that does not is killed, and fails the test.
pub fn end(child: &mut Child) -> ExitStatus {
    let start = Instant::now();
    while start.elapsed() < PATIENCE {
        if let Some(status) = child.try_wait().unwrap() {
            return status;
        }
        std::thread::sleep(Duration::from_millis(1));
    }
    child.kill().unwrap();
    child.wait().unwrap()
}

/// Whether a signal, and no exit, was a run's end.
pub fn ended_by(status: ExitStatus, signal: i32) -> bool {
    status.signal() == Some(signal)
}
