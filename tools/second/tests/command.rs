//! The program as its callers run it: what it writes, and its exit status.

#![allow(clippy::unwrap_used)]

use std::io::Write;
use std::path::PathBuf;
use std::process::{Command, Output, Stdio};

/// The path of a stored file, by that from the root of the repository.
fn path(file: &str) -> PathBuf {
    [env!("CARGO_MANIFEST_DIR"), "../..", file].iter().collect()
}

/// The bytes of a stored file.
fn stored(file: &str) -> Vec<u8> {
    std::fs::read(path(file)).unwrap()
}

/// Runs the program with words and an input.
fn run(words: &[&str], input: &[u8]) -> Output {
    let mut command = Command::new(env!("CARGO_BIN_EXE_second"));
    command.args(words).stdin(Stdio::piped());
    command.stdout(Stdio::piped()).stderr(Stdio::piped());
    let mut child = command.spawn().unwrap();
    let mut stdin = child.stdin.take().unwrap();
    // The output is read meanwhile, so that neither side waits for the other.
    std::thread::scope(|scope| {
        // Where the program ends before it has read all, writing fails, which is no fault here.
        scope.spawn(move || stdin.write_all(input).is_ok());
        child.wait_with_output().unwrap()
    })
}

/// What the program writes, where it exits with 0.
fn written(words: &[&str], input: &[u8]) -> Vec<u8> {
    let output = run(words, input);
    assert_eq!(output.status.code(), Some(0), "{words:?}");
    output.stdout
}

/// The stored cases of vocabularies are made again, and the expected output of vocabularies, scripts and writers. The
/// rest takes longer, and is left to .ci/run.
#[test]
fn stored_files() {
    let vocabularies = stored("crates/vocabulary_cases/stdin");
    assert!(written(&["vocabulary"], &[]) == vocabularies);
    assert!(written(&["expect-vocabulary"], &vocabularies) == stored("crates/vocabulary_cases/stdout"));
    let scripts = stored("crates/script_cases/stdin");
    assert!(written(&["expect-script"], &scripts) == stored("crates/script_cases/stdout"));
    let writings = stored("crates/writer_cases/stdin");
    assert!(written(&["expect-writer"], &writings) == stored("crates/writer_cases/stdout"));
}

/// A seed makes the same cases in every run, and others than another seed.
#[test]
fn seeds() {
    let seventh = written(&["vocabulary", "7"], &[]);
    assert!(written(&["vocabulary", "7"], &[]) == seventh);
    assert!(written(&["vocabulary", "8"], &[]) != seventh);
}

/// Of the stored scripts none is new; of every 65,535 the first is the only one.
#[test]
fn choices() {
    let file = "crates/script_cases/stdin";
    let scripts = stored(file);
    let name = path(file);
    assert!(written(&["new", "script", name.to_str().unwrap()], &scripts).is_empty());
    let first = written(&["every", "script", "65535"], &scripts);
    assert!(!first.is_empty() && first.len() < scripts.len() && scripts.starts_with(&first));
    let line = written(&["expect-script"], &first);
    assert_eq!(line, b"accepted 3\n");
}

/// A command line that is none, a file that ends inside a case, and a file that is not there: the exit status is 2, and
/// nothing is written but what is wrong.
#[test]
fn refused_command_lines() {
    let calls: [(&[&str], &str); 11] = [
        (&[], "usage: "),
        (&["vectors"], "usage: "),
        (&["vocabulary", "x"], "usage: "),
        (&["script", "-1"], "usage: "),
        (&["expect-vocabulary", "x"], "usage: "),
        (&["expect-vocabulary"], "the file ends inside case 0"),
        (&["expect-comparison"], "the file ends inside case 0"),
        (&["expect-classification"], "the file ends inside case 0"),
        (&["expect-writer"], "the file ends inside case 0"),
        (&["every", "script", "2"], "the file ends inside case 0"),
        (&["new", "script", "/nowhere/stdin"], "/nowhere/stdin: "),
    ];
    for (words, wrong) in calls {
        let output = run(words, &[1, 0, 0]);
        assert_eq!(output.status.code(), Some(2), "{words:?}");
        assert_eq!(output.stdout, b"", "{words:?}");
        let said = String::from_utf8(output.stderr).unwrap();
        assert!(said.starts_with(&format!("second: {wrong}")), "{words:?}: {said}");
    }
}
