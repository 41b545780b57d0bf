//! The command as it is called: its exit statuses, its options, and `compare` with programs in the reasoners' place.

#![allow(clippy::unwrap_used)]

use std::ffi::OsStr;
use std::fs::{self, File};
use std::path::{Path, PathBuf};
use std::process::{Command, Stdio};

/// A vocabulary that is accepted.
const ACCEPTED: &str = "examples/both-ways.vocabulary";
/// One that is refused.
const REFUSED: &str = "examples/repeated-label.vocabulary";

/// The command, run in the repository.
fn bridge<I: AsRef<OsStr>>(words: impl IntoIterator<Item = I>) -> Command {
    let mut command = Command::new(env!("CARGO_BIN_EXE_bridge"));
    command
        .current_dir(concat!(env!("CARGO_MANIFEST_DIR"), "/../.."))
        .args(words)
        .stdin(Stdio::null());
    command
}

/// What a run did: its status, what it wrote to standard output, and to standard error.
fn run(mut command: Command) -> (i32, String, String) {
    let output = command.output().unwrap();
    let text = |bytes| String::from_utf8(bytes).unwrap();
    (output.status.code().unwrap(), text(output.stdout), text(output.stderr))
}

/// A line's run, by its words.
fn run_line(line: &str) -> (i32, String, String) {
    run(bridge(line.split(' ')))
}

/// A directory for a test's files.
fn directory(name: &str) -> PathBuf {
    let path = PathBuf::from(env!("CARGO_TARGET_TMPDIR")).join(name);
    let _ = fs::remove_dir_all(&path);
    path
}

fn reasoner(name: &str) -> String {
    format!("{}/tests/reasoners/{name}", env!("CARGO_MANIFEST_DIR"))
}

#[test]
fn what_is_wrong_has_its_status_and_is_said() {
    for (line, status, said) in [
        ("comapre", 64, "there is no command 'comapre'; did you mean compare?\n"),
        (
            "race tabel x",
            64,
            "there is no command 'race tabel'; did you mean race table?\n",
        ),
        (
            "emit fact v 1 2 --seed 1",
            64,
            "there is no option --seed\nusage: bridge emit ",
        ),
        ("emit options x --form named", 64, "there is no option --form\n"),
        ("race table x --ours y", 64, "there is no option --ours\n"),
        (
            "customs x --sede 1",
            64,
            "there is no option --sede; did you mean --seed?\n",
        ),
        ("customs x --seed 1 --seed=2", 64, "--seed is given twice\n"),
        ("customs", 64, "DIRECTORY is missing\n"),
        ("compare x", 64, "x is one word too many\n"),
        ("race worst x", 64, "--ours has to name a program\n"),
        ("race names x", 64, "--ours has to name a program\n"),
        ("emit prolog v 1 2", 64, "the language is konclude or fact\n"),
        ("emit fact v 1 2 --form=long", 64, "--form takes named or written-out\n"),
        ("answer v 1 x", 64, "B is a record number, and 'x' is none\n"),
        ("customs /dev/null/x", 73, "/dev/null/x: "),
        ("answer no-such-file 1 2", 66, "no-such-file: "),
        ("compare --fact /no/such", 69, "there is no reasoner /no/such; "),
    ] {
        let (code, stdout, stderr) = run_line(line);
        assert_eq!((code, stdout.as_str()), (status, ""), "{line}: {stderr}");
        assert!(stderr.starts_with(&format!("bridge: {said}")), "{line}: {stderr}");
    }
}

#[test]
fn refusals_are_the_librarys() {
    let refusal = judge::check_vocabulary(&fs::read(format!("../../{REFUSED}")).unwrap()).unwrap_err();
    let (code, _, stderr) = run_line(&format!("answer {REFUSED} 1 2"));
    assert_eq!((code, stderr), (2, format!("bridge: {REFUSED}: {refusal}\n")));
    let accepted = fs::read(format!("../../{ACCEPTED}")).unwrap();
    for number in [0, 999, 70_000] {
        let refusal = judge::compare(&accepted, 1, number, &mut [0; judge::SURVIVOR_BYTES]).unwrap_err();
        let (code, _, stderr) = run_line(&format!("answer {ACCEPTED} 1 {number}"));
        assert_eq!((code, stderr), (2, format!("bridge: {refusal}\n")));
    }
}

#[test]
fn options_are_taken_in_both_forms_and_help_is_an_answer() {
    let after = run_line(&format!("emit fact {ACCEPTED} 1 2 --form written-out"));
    assert_eq!(after.0, 0, "{}", after.2);
    assert_eq!(run_line(&format!("emit --form=written-out fact {ACCEPTED} 1 2")), after);
    assert_ne!(run_line(&format!("emit fact {ACCEPTED} 1 2")).1, after.1);
    let (code, stdout, _) = run_line("race one --help");
    assert_eq!(code, 0);
    assert!(stdout.starts_with("usage: bridge emit options TBOX\n       bridge emit konclude|fact "));
}

#[test]
fn an_answer_that_cannot_be_written_is_a_failure_and_a_reader_that_left_is_not_spoken_of() {
    let line = format!("emit konclude {ACCEPTED} 1 2");
    let (reader, writer) = std::io::pipe().unwrap();
    drop(reader);
    let mut command = bridge(line.split(' '));
    command.stdout(writer);
    let (code, _, stderr) = run(command);
    assert_eq!((code, stderr.as_str()), (74, ""));
    let mut command = bridge(line.split(' '));
    command.stdout(File::create("/dev/full").unwrap());
    let (code, _, stderr) = run(command);
    assert_eq!(code, 74);
    assert!(stderr.starts_with("bridge: the answer cannot be written ("), "{stderr}");
}

#[test]
fn customs_vocabularies_are_the_same_for_the_same_seed() {
    let files = |name: &str, seed: &str| {
        let path = directory(name);
        let (code, _, stderr) = run(bridge([
            OsStr::new("customs"),
            path.as_os_str(),
            OsStr::new("--count=8"),
            OsStr::new(seed),
        ]));
        assert_eq!(code, 0, "{stderr}");
        let mut files: Vec<(PathBuf, Vec<u8>)> = fs::read_dir(&path)
            .unwrap()
            .map(|entry| entry.unwrap().path())
            .map(|file| (file.strip_prefix(&path).unwrap().to_owned(), fs::read(&file).unwrap()))
            .collect();
        files.sort();
        files
    };
    let first = files("customs-first", "--seed=1");
    assert_eq!(first.len(), 8 * 12 + 1);
    assert!(first == files("customs-again", "--seed=1"));
    assert!(first != files("customs-other", "--seed=2"));
}

/// A comparison with the same program in the place of both reasoners: its status and what it printed.
fn compare_with(name: &str) -> (i32, String) {
    let to = directory(&format!("compare-{name}"));
    let mut command = bridge(["compare", "--seed=2", "--count", "6"]);
    command.args(["--konclude", &reasoner(name), "--fact", &reasoner(name)]);
    command.arg("--to").arg(&to);
    let (code, stdout, stderr) = run(command);
    assert_eq!(stderr, "");
    (code, stdout)
}

/// Of the six questions of seed 2 the library answers four with Equal.
#[test]
fn compare_does_not_hold_where_an_equal_is_denied_in_every_run_and_form() {
    let (code, stdout) = compare_with("always-different");
    assert_eq!(code, 1, "{stdout}");
    for line in [
        "| equal | 4 (67 %) |",
        "| different, confirmed by the meaning of the survivors written | 2 (33 %) |",
        "| as the library | 2 | 2 |",
        "| otherwise, the same in ten more runs | 4 | 4 |",
        "| of these, left open | 4 | 4 |",
        "left open: 0 different that the meaning does not confirm, 8 denials of an equal in every run and form",
    ] {
        assert!(stdout.lines().any(|printed| printed == line), "{line}: {stdout}");
    }
}

#[test]
fn compare_holds_where_reasoners_are_wrong_by_themselves() {
    for (name, row) in [
        ("always-equal", "| otherwise, the same in ten more runs | 2 | 2 |"),
        ("contradictory", "| otherwise, the same in ten more runs | 4 | 4 |"),
        ("silent", "| none in either form | 6 | 6 |"),
    ] {
        let (code, stdout) = compare_with(name);
        assert_eq!(code, 0, "{name}: {stdout}");
        assert!(stdout.contains(&format!("\n{row}\n")), "{name}: {stdout}");
        assert!(
            stdout.contains("\n| of these, left open | 0 | 0 |\n"),
            "{name}: {stdout}"
        );
    }
}

#[test]
fn compare_counts_answers_that_change_from_run_to_run_apart() {
    let (code, stdout) = compare_with("wavering");
    assert_eq!(code, 0, "{stdout}");
    assert!(
        stdout.contains("\n| otherwise, the same in ten more runs | 0 | 0 |\n"),
        "{stdout}"
    );
    assert!(
        !stdout.contains("\n| otherwise, not the same in ten more runs | 0 | 0 |\n"),
        "{stdout}"
    );
}

#[test]
fn a_process_that_cannot_be_run_has_its_status() {
    let path = directory("race");
    assert_eq!(
        run(bridge([
            OsStr::new("customs"),
            path.as_os_str(),
            OsStr::new("--count=1")
        ]))
        .0,
        0
    );
    let silent = reasoner("silent");
    let mut command = bridge([
        "race",
        "one",
        "--ours",
        "/no/such",
        "--konclude",
        &silent,
        "--fact",
        &silent,
    ]);
    command.arg(&path);
    let (code, _, stderr) = run(command);
    assert_eq!(code, 71, "{stderr}");
}

/// A race of all names in a directory, with stand-ins for the library's program and for both reasoners: what it
/// printed, and what it said of differences.
fn race_names(directory: &Path, ours: &str, theirs: &str) -> (String, String) {
    let mut command = bridge(["race", "names", "--repeats=1", "--ours", &reasoner(ours)]);
    command.args(["--konclude", &reasoner(theirs), "--fact", &reasoner(theirs)]);
    command.arg(directory);
    let (code, stdout, stderr) = run(command);
    assert_eq!(code, 0, "{stderr}");
    (stdout, stderr)
}

/// The last two cells of the rows of all three: wrong tables, and runs without one.
fn failures(stdout: &str) -> Vec<String> {
    let rows = ["| library |", "| FaCT++ |", "| Konclude |"].map(|name| {
        let row = stdout.lines().find(|line| line.starts_with(name));
        row.unwrap()
    });
    let last = |row: &str| row.rsplit(" | ").take(2).collect::<Vec<_>>().join(" ");
    rows.map(last).to_vec()
}

/// Two names that are apart, with the reasoners' files.
#[test]
fn names_that_are_said_to_be_apart_and_are_so_are_right() {
    let path = directory("race-apart");
    fs::create_dir(&path).unwrap();
    let records = [
        [16, 1, 0, 0, 0, 0, 0, 0],
        [3, 0, 1, 0, 0, 0, 0, 0],
        [3, 0, 2, 0, 0, 0, 0, 0],
    ];
    for (name, content) in [
        ("list", "two 1 2\n"),
        ("two-names.tbox", "(defprimconcept T1)\n(defprimconcept T2)\n"),
        ("two-names.ofn", "Declaration(Class(:T1))\nDeclaration(Class(:T2))\n"),
    ] {
        fs::write(path.join(name), content).unwrap();
    }
    fs::write(path.join("two.vocabulary"), records.concat()).unwrap();
    let (stdout, stderr) = race_names(&path, "flat", "flat");
    assert_eq!(
        failures(&stdout),
        ["0 | 0 of 1", "0 | 0 of 1", "0 | 0 of 1"],
        "{stdout}"
    );
    assert_eq!(stderr, "");
}

/// In a customs vocabulary some name lies within another.
#[test]
fn wrong_and_missing_tables_of_names_are_counted_and_said() {
    let path = directory("race-names");
    let customs = run(bridge([
        OsStr::new("customs"),
        path.as_os_str(),
        OsStr::new("--count=2"),
    ]));
    assert_eq!(customs.0, 0, "{}", customs.2);
    let (stdout, stderr) = race_names(&path, "flat", "flat");
    assert_eq!(
        failures(&stdout),
        ["0 | 2 of 2", "0 | 2 of 2", "0 | 2 of 2"],
        "{stdout}"
    );
    assert_eq!(stderr.matches("for the library only: ").count(), 4, "{stderr}");
    let (stdout, stderr) = race_names(&path, "silent", "silent");
    assert_eq!(
        failures(&stdout),
        ["0 | 2 of 2", "2 | 0 of 2", "2 | 0 of 2"],
        "{stdout}"
    );
    assert_eq!(
        stderr
            .matches(": no table, status Some(0); it said:\nLoading KB\n")
            .count(),
        4,
        "{stderr}"
    );
}
