//! `desk recheck` as people call it: large tables, hostile ones, and what is said of each sort of line.

#![allow(clippy::unwrap_used, clippy::indexing_slicing, clippy::panic)]

#[path = "support/signals.rs"]
mod signals;

use signals::heed_signals;
use std::fs;
use std::io::{BufRead, BufReader, Read, Write};
use std::os::fd::OwnedFd;
use std::os::unix::net::UnixStream;
use std::path::PathBuf;
use std::process::{Child, Command, Output, Stdio};
use std::time::{Duration, Instant};

/// Sample V of docs/FORMATS.md, section 10: term 4 lies within term 3.
const V: &str =
    "vocabulary roles 0\nc1\nc2\nc3\nObjectIntersectionOf(c1 c2)\nSubClassOf(ObjectIntersectionOf(c1 c2) c3)\n";
/// Terms to which nothing can belong: 3 and 5.
const EMPTY: &str =
    "vocabulary roles 0\nc1\nObjectComplementOf(c1)\nObjectIntersectionOf(c1 ObjectComplementOf(c1))\nc2\n\
                     ObjectIntersectionOf(c2 #3)\nowl:Nothing\nowl:Thing\n";
/// Statements that nothing satisfies.
const CONTRADICTION: &str = "vocabulary roles 0\nowl:Thing\nowl:Nothing\nc1\nSubClassOf(owl:Thing owl:Nothing)\n";

/// A directory of files for a test.
struct Files(PathBuf);

impl Files {
    fn new(test: &str) -> Files {
        let directory = PathBuf::from(env!("CARGO_TARGET_TMPDIR")).join(format!("recheck-{test}"));
        let _ = fs::remove_dir_all(&directory);
        fs::create_dir(&directory).unwrap();
        let files = Files(directory);
        files.write("v.text", V);
        files.write("empty.text", EMPTY);
        files.write("no.text", CONTRADICTION);
        files
    }

    fn write(&self, name: &str, bytes: impl AsRef<[u8]>) {
        fs::write(self.0.join(name), bytes).unwrap();
    }

    /// A call of desk in the directory.
    fn desk(&self, words: &[&str]) -> Command {
        let mut command = Command::new(env!("CARGO_BIN_EXE_desk"));
        command.args(words).current_dir(&self.0).stdin(Stdio::null());
        heed_signals(&mut command);
        command
    }

    /// A call under a limit of 64 MB of memory that may be written, the stacks of threads included.
    fn limited(&self, words: &str) -> Command {
        let mut command = Command::new("sh");
        let call = format!("ulimit -d 65536 && exec '{}' {words}", env!("CARGO_BIN_EXE_desk"));
        command.args(["-c", &call]).current_dir(&self.0).stdin(Stdio::null());
        heed_signals(&mut command);
        command
    }

    /// What desk says of a table, and its status. It has to say nothing on standard error.
    fn recheck(&self, table: impl AsRef<[u8]>, options: &[&str]) -> (String, i32) {
        self.write("t", table);
        let mut words = vec!["recheck", "t"];
        words.extend(options);
        let output = ended(self.desk(&words).stdout(Stdio::piped()).stderr(Stdio::piped()).spawn());
        assert_eq!(String::from_utf8_lossy(&output.stderr), "");
        (text(output.stdout), output.status.code().unwrap())
    }
}

/// What a process says until its end, for which nobody waits forever.
fn ended(child: std::io::Result<Child>) -> Output {
    let child = child.unwrap();
    let id = child.id().to_string();
    let (send, receive) = std::sync::mpsc::channel();
    std::thread::spawn(move || send.send(child.wait_with_output()));
    receive.recv_timeout(Duration::from_secs(60)).map_or_else(
        |_| {
            let _ = Command::new("kill").arg(id).status();
            panic!("desk does not end")
        },
        Result::unwrap,
    )
}

fn text(bytes: Vec<u8>) -> String {
    String::from_utf8(bytes).unwrap()
}

/// The last line of what was said of the table t.
fn summary([holding, lines, vacuous, failing, refused, malformed, unread]: [u32; 7]) -> String {
    format!(
        "t: {holding} of {lines} lines hold; {vacuous} hold only vacuously, {failing} do not hold, {refused} refused, \
         {malformed} malformed, {unread} not readable\n"
    )
}

#[test]
fn each_sort_of_line_is_told_with_its_place() {
    let files = Files::new("sorts");
    files.write("s.text", "script #4 within #3\na\nstart 1\n");
    files.write("faulty.text", "vocabulary roles 0\nc1\nc\n  c2 c3\n");
    files.write("short.vocabulary", [16, 1]);
    let table = "-- a comment\nv.text 4 3 equal\n\nv.text 4 3 different\n  v.text 4 4 different\nv.text 3 4 within\n\
                 v.text 4 3 within\nv.text 4 3 within s.text\nv.text 4 5 equal\nfaulty.text 1 1 equal\n\
                 short.vocabulary 1 1 equal\nv.text 4 3 within v.text\nv.text 4 x equal\n\
                 v.text 4 3 within nowhere.script\n -  4 3 equal";
    let (said, status) = files.recheck(table, &[]);
    let fault = said.lines().find(|line| line.contains("fault: ")).unwrap().to_string();
    assert!(fault.starts_with("  faulty.text:3:"), "{fault}");
    let faults: String = said
        .lines()
        .filter(|line| line.starts_with("  faulty.text:"))
        .map(|line| format!("{line}\n"))
        .collect();
    let expected = format!(
        "t:2:1: v.text 4 3 equal\n  the terms are different, element 4\n\
         t:5:1: v.text 4 4 different\n  the terms are equal\n\
         t:6:1: v.text 3 4 within\n  term 3 does not lie within term 4, element 4\n\
         t:8:1: v.text 4 3 within s.text\n  refused, 24, at script record 2: the chain ends with a frame left\n\
         t:9:1: v.text 4 5 equal\n  refused, 10, number 5: the number asked about is no term record; \
         record 5 is a statement\n\
         t:10:1: faulty.text 1 1 equal\n{faults}\
         t:11:1: short.vocabulary 1 1 equal\n  refused, 1: the vocabulary's length is under 8, over 4,096 or no multiple \
         of 8; it has 2 bytes\n\
         t:12:1: v.text 4 3 within v.text\n  v.text: is the text of a vocabulary, and a script is needed\n\
         t:13:10: v.text 4 x equal\n  'x' is no term; A and B are each a record's number, a name or the text of a term; no names are given for this vocabulary\n\
         t:14:19: v.text 4 3 within nowhere.script\n  nowhere.script: there is no such file\n\
         t:15:2: -  4 3 equal\n  ./-: there is no such file\n{}",
        summary([2, 13, 0, 4, 4, 1, 2])
    );
    assert_eq!(said, expected);
    assert_eq!(status, 66);
}

#[test]
fn the_status_is_the_greatest_of_the_lines() {
    let files = Files::new("status");
    let [good, bad, refused, unread] = [
        "v.text 4 3 within\n",
        "v.text 4 3 equal\n",
        "v.text 9 3 equal\n",
        "nowhere 4 3 equal\n",
    ];
    for (table, wanted) in [
        (String::new(), 0),
        (good.repeat(2), 0),
        ([good, bad, good].concat(), 1),
        ([refused, bad].concat(), 2),
        ([bad, "no line\n", good].concat(), 2),
        ([unread, refused, bad].concat(), 66),
    ] {
        assert_eq!(files.recheck(&table, &[]).1, wanted, "{table}");
        let (said, status) = files.recheck(&table, &["--quiet"]);
        assert_eq!((said.as_str(), status), ("", wanted));
    }
    assert_eq!(files.recheck("-- nothing\n\n", &[]).0, "t: has no line to recheck\n");
}

#[test]
fn damaged_lines_are_told_and_the_others_are_judged() {
    let files = Files::new("damaged");
    let mut table =
        b"\xef\xbb\xbfv.text 4 3 different\r\n-- \xe9t\xe9 \0\r\nv.t\xe9xt 4 3 equal\r\nv.text\0 4 3 equal\n".to_vec();
    table.extend(b"v.text 4 3 ".iter().copied().chain([b'x'; 70_000]).chain(*b"\n"));
    table.extend(b"--".iter().copied().chain([b'x'; 70_000]).chain(*b"\n"));
    table.extend(b"v.text 4 3 different\xef\xbb\xbf\n\tv.text 4 3 different\r");
    let (said, status) = files.recheck(table, &[]);
    let expected = format!(
        "t:3:4: v.t\u{fffd}xt 4 3 equal\n  the line is no text (not UTF-8)\n\
         t:4:7: v.text\\u{{0}} 4 3 equal\n  the line is no text (it has bytes that are 0)\n\
         t:5:1: v.text 4 3 {} ..\n  the line is too long; it may have 65,536 bytes\n\
         t:7:12: v.text 4 3 different\u{feff}\n  'different\u{feff}' is no claim; did you mean 'different'?\n{}",
        "x".repeat(149),
        summary([2, 6, 0, 0, 0, 4, 0])
    );
    assert_eq!((said, status), (expected, 2));
}

#[test]
fn only_regular_files_may_be_named() {
    let files = Files::new("regular");
    assert!(Command::new("mkfifo")
        .arg(files.0.join("fifo"))
        .status()
        .unwrap()
        .success());
    fs::create_dir(files.0.join("inner")).unwrap();
    let table =
        "fifo 4 3 equal\n/dev/zero 4 3 equal\ninner 4 3 equal\nv.text 4 3 within fifo\nv.text 4 3 within /dev/null\n";
    let (said, status) = files.recheck(table, &[]);
    let expected = format!(
        "t:1:1: fifo 4 3 equal\n  fifo: is no regular file\n\
         t:2:1: /dev/zero 4 3 equal\n  /dev/zero: is no regular file\n\
         t:3:1: inner 4 3 equal\n  inner: is a directory, not a file\n\
         t:4:19: v.text 4 3 within fifo\n  fifo: is no regular file\n\
         t:5:19: v.text 4 3 within /dev/null\n  /dev/null: is no regular file\n{}",
        summary([0, 5, 0, 0, 0, 0, 5])
    );
    assert_eq!((said, status), (expected, 66));
    // A file may have the name by which standard input is called elsewhere.
    files.write("-", V);
    assert_eq!(files.recheck("- 4 3 different\n", &[]).1, 0);
}

#[test]
fn lines_that_hold_vacuously_are_marked_and_fail_if_that_is_wanted() {
    let files = Files::new("vacuous");
    files.write(
        "top1.text",
        "script #3 within #1\na\nstart 1\nextend owner 1 column 0 x a at 0\n",
    );
    files.write(
        "top7.text",
        "script #3 within #7\na\nstart 1\nextend owner 7 column 0 x a at 0\n",
    );
    let because = |number: u32, line: &str, why: &str| format!("t:{number}:1: {line}\n  holds only because {why}\n");
    let marked = [
        ("no.text 3 2 equal", "nothing satisfies the statements"),
        ("no.text 3 2 within", "nothing satisfies the statements"),
        ("no.text 3 1 within top1.text", "nothing satisfies the statements"),
        ("empty.text 3 5 equal", "nothing can belong to either term"),
        ("empty.text 5 4 within", "nothing can belong to term 5"),
        ("empty.text 3 7 within top7.text", "nothing can belong to term 3"),
        ("empty.text 6 4 within", "nothing can belong to term 6"),
        ("empty.text 3 6 equal", "nothing can belong to either term"),
        ("empty.text 6 5 equal", "nothing can belong to either term"),
        ("empty.text 3 6 within", "nothing can belong to term 3"),
    ];
    let table: String = marked.iter().map(|(line, _)| format!("{line}\n")).collect();
    let told: String = (1..)
        .zip(marked)
        .map(|(number, (line, why))| because(number, line, why))
        .collect();
    let expected = told + &summary([0, 10, 10, 0, 0, 0, 0]);
    assert_eq!(files.recheck(&table, &[]), (expected.clone(), 0));
    assert_eq!(files.recheck(&table, &["--strict"]), (expected, 1));
    let json = "{\"command\":\"recheck\",\"status\":1,\"file\":\"t\",\"line\":1,\"column\":1,\
                \"text\":\"no.text 3 2 equal\",\"verdict\":\"holds vacuously\",\
                \"why\":\"holds only because nothing satisfies the statements\"}\n\
                {\"command\":\"recheck\",\"status\":1,\"file\":\"t\",\"verdict\":\"does not hold\",\"lines\":1,\"holding\":0,\
                \"vacuous\":1,\"not_holding\":0,\"refused\":0,\"malformed\":0,\"not_readable\":0}\n";
    let options = ["--strict", "--json"];
    assert_eq!(files.recheck("no.text 3 2 equal\n", &options), (json.to_string(), 1));
    assert!(files
        .recheck("no.text 3 2 equal\n", &["--json"])
        .0
        .contains("\"status\":0,\"file\":\"t\",\"verdict\":\"holds\""));
}

#[test]
fn other_lines_are_not_marked() {
    let files = Files::new("ordinary");
    files.write(
        "top7.text",
        "script #1 within #7\na\nstart 1\nextend owner 7 column 0 x a at 0\n",
    );
    files.write(
        "s.text",
        "script #2 within #1\na\nstart 1\nextend owner 1 column 0 x a at 0\n",
    );
    // Of 13 atoms and a contradiction, which a comparison would show, if it could be asked.
    let names: String = (1..=13).map(|label| format!("c{label}\n")).collect();
    let large = format!("vocabulary roles 0\nowl:Thing\n{names}owl:Nothing\nSubClassOf(owl:Thing owl:Nothing)\n");
    files.write("large.text", large);
    let table = "v.text 4 4 equal\nv.text 4 3 within\nempty.text 1 7 within\nempty.text 1 7 within top7.text\n\
                 empty.text 1 3 different\nlarge.text 2 1 within s.text\n";
    let expected = summary([6, 6, 0, 0, 0, 0, 0]);
    assert_eq!(files.recheck(table, &["--strict"]), (expected, 0));
    let (said, status) = files.recheck("no.text 3 2 different\n", &["--strict", "--explain"]);
    let expected = format!(
        "t:1:1: no.text 3 2 different\n  the terms are equal\n    A: term 3, c1\n    B: term 2, owl:Nothing\n  \
         no interpretation satisfies the statements, so all terms are equal\n{}",
        summary([0, 1, 0, 1, 0, 0, 0])
    );
    assert_eq!((said, status), (expected, 1));
}

#[test]
fn within_needs_room_for_a_record() {
    let files = Files::new("room");
    let full = |last: &str| {
        format!(
            "vocabulary roles 0\nc1\nc2\n{}{last}\n",
            "ObjectComplementOf(#1)\n".repeat(508)
        )
    };
    files.write("full.text", full("ObjectComplementOf(#2)"));
    files.write("said.text", full("ObjectIntersectionOf(c1 c2)"));
    let (said, status) = files.recheck("full.text 1 2 within\nsaid.text 1 2 within\n", &[]);
    let expected = format!(
        "t:1:1: full.text 1 2 within\n  the vocabulary has 512 records, which leaves no room for the record \"1 and 2\", \
         and none says it\nt:2:1: said.text 1 2 within\n  term 1 does not lie within term 2, element 1\n{}",
        summary([0, 2, 0, 1, 1, 0, 0])
    );
    assert_eq!((said, status), (expected, 2));
}

#[test]
fn failing_lines_are_explained_with_words() {
    let files = Files::new("explained");
    let named = V.replace("c1\nc2\nc3\n", "c1 -- sample\nc2 -- returned\nc3 -- free\n");
    files.write("named.text", named);
    let assembled = files
        .desk(&["assemble", "-q", "v.text", "-o", "v.vocabulary"])
        .status()
        .unwrap();
    assert!(assembled.success());
    files.write("s.text", "script #4 within #3\na\nstart 1\n");
    let table = "v.vocabulary 4 3 equal\nnamed.text 3 4 within\nv.text 4 3 within s.text\n";
    let told = |[one, two, three]: [&str; 3], [one2, two2, three2]: [&str; 3]| {
        format!(
            "t:1:1: v.vocabulary 4 3 equal\n  the terms are different, element 4\n    \
             A: term 4, ObjectIntersectionOf(c1 c2)\n    B: term 3, {three}\n  element 4 belongs to B and not to A\n    \
             at it holds: {three}\n    does not hold: {one}, {two}\n\
             t:2:1: named.text 3 4 within\n  term 3 does not lie within term 4, element 4\n    \
             A: term 3, {three2}\n    B: term 4, ObjectIntersectionOf(c1 c2)\n  element 4 belongs to A and not to B\n    \
             at it holds: {three2}\n    does not hold: {one2}, {two2}\n\
             t:3:1: v.text 4 3 within s.text\n  refused, 24, at script record 2: the chain ends with a frame left\n  \
             still to be closed: C3(a)\n{}",
            summary([0, 3, 0, 3, 0, 0, 0])
        )
    };
    let (plain, words) = (["c1", "c2", "c3"], ["c1 (sample)", "c2 (returned)", "c3 (free)"]);
    assert_eq!(files.recheck(table, &["--explain"]), (told(plain, words), 1));
    assert_eq!(
        files.recheck(table, &["--words", "named.text"]),
        (told(words, words), 1)
    );
    // The words of another vocabulary say nothing of these.
    assert_eq!(
        files.recheck(table, &["--words", "empty.text"]),
        (told(plain, words), 1)
    );
    let (json, _) = files.recheck(table, &["--words", "named.text", "--json"]);
    let lines: Vec<&str> = json.lines().collect();
    assert_eq!(lines.len(), 4);
    let element =
        "\"element\":{\"number\":4,\"belongs\":\"b\",\"holds\":[{\"record\":3,\"text\":\"c3\",\"words\":\"free\"}],";
    assert!(lines[0].contains(element), "{}", lines[0]);
    assert!(
        lines[1].contains("\"element\":{\"number\":4,\"belongs\":\"a\","),
        "{}",
        lines[1]
    );
    assert!(
        lines[2].ends_with("\"detail\":\"still to be closed: C3(a)\"}"),
        "{}",
        lines[2]
    );
}

#[test]
fn a_refused_script_is_explained_if_that_is_wanted() {
    let files = Files::new("refused");
    files.write(
        "s.text",
        "script #4 within #3\na\nstart 1\nextend owner 9 column 0 x a at 0\n",
    );
    let told =
        "t:1:1: v.text 4 3 within s.text\n  refused, 18, at script record 3: the step names a query column, owner, \
                column, position or term that does not exist for it\n";
    let detail = "  there is no record 9; the vocabulary ends at record 5\n";
    let last = summary([0, 1, 0, 0, 1, 0, 0]);
    let table = "v.text 4 3 within s.text\n";
    assert_eq!(files.recheck(table, &[]), (format!("{told}{last}"), 2));
    assert_eq!(
        files.recheck(table, &["--explain"]),
        (format!("{told}{detail}{last}"), 2)
    );
}

#[test]
fn the_answer_is_the_same_for_every_number_of_workers() {
    let files = Files::new("order");
    for copy in 0..20 {
        files.write(&format!("v{copy}.text"), V);
    }
    files.write("walk.bin", include_bytes!("../../../bench/data/walk8.bin"));
    files.write("s.text", "script #4 within #3\na\nstart 1\n");
    let mut table = String::new();
    for number in 0..6000_u32 {
        table.push_str(&match number.wrapping_mul(2_654_435_761) >> 27 {
            0..6 => "v.text 4 3 equal\n".to_string(),
            6..12 => format!("v{}.text 4 3 different\n", number % 20),
            12..16 => format!("v{}.text {} 3 within\n", number % 20, number % 6),
            16..18 => format!("walk.bin {} {} equal\n", 1 + number % 7, 1 + number % 5),
            18..22 => format!("v.text {number} 3 equal\n"),
            22..24 => "empty.text 3 5 equal\n".to_string(),
            24..26 => "v.text 4 3 within s.text\n".to_string(),
            26..28 => format!("-- {number}\n\n"),
            28..30 => format!("nowhere{number} 1 2 equal\n"),
            _ => format!("{number} no line\n"),
        });
    }
    for options in [&[][..], &["--explain"], &["--json", "--strict"]] {
        let with = |jobs: &str| files.recheck(&table, &[options, &["-j", jobs]].concat());
        let (said, status) = with("1");
        assert_eq!(status, 66);
        for jobs in ["2", "7", "64"] {
            assert!(
                (said.as_str(), 66) == (with(jobs).0.as_str(), status),
                "-j {jobs} {options:?}"
            );
        }
        let told = said
            .lines()
            .filter(|line| line.starts_with("t:") || line.starts_with("{\"command"))
            .count();
        assert!(told > 3000, "{told}");
        let numbers: Vec<u32> = said
            .lines()
            .filter_map(|line| line.strip_prefix("t:")?.split(':').next()?.parse().ok())
            .collect();
        assert!(numbers.is_sorted());
    }
    for wrong in ["0", "65", "x"] {
        let output = ended(
            files
                .desk(&["recheck", "t", "--jobs", wrong])
                .stderr(Stdio::piped())
                .spawn(),
        );
        assert_eq!(output.status.code(), Some(64), "{wrong}");
    }
}

/// Counts what a call says, and answers the last line and the status.
fn counted(mut command: Command, feed: impl FnOnce(&mut dyn Write) + Send + 'static) -> (usize, String, i32) {
    let mut child = command.stdin(Stdio::piped()).stdout(Stdio::piped()).spawn().unwrap();
    let mut stdin = child.stdin.take().unwrap();
    let feeder = std::thread::spawn(move || feed(&mut stdin));
    let (mut count, mut last) = (0, String::new());
    for line in BufReader::new(child.stdout.take().unwrap()).lines() {
        count += 1;
        last = line.unwrap();
    }
    feeder.join().unwrap();
    (count, last, child.wait().unwrap().code().unwrap())
}

#[test]
fn a_million_bad_lines_take_little_memory() {
    let files = Files::new("million");
    files.write("t", "no line\n".repeat(1_000_000));
    let (count, last, status) = counted(files.limited("recheck t"), |_| {});
    assert_eq!((count, status), (2_000_001, 2));
    let expected =
        "t: 0 of 1,000,000 lines hold; 0 hold only vacuously, 0 do not hold, 0 refused, 1,000,000 malformed, 0 not readable";
    assert_eq!(last, expected);
    files.write("t", "v.text 4 3 equal\n".repeat(100_000));
    let (count, last, status) = counted(files.limited("recheck t -j 4 --json --explain"), |_| {});
    assert_eq!((count, status), (100_001, 1));
    assert!(last.contains("\"lines\":100000,"), "{last}");
}

#[test]
fn a_line_without_an_end_takes_little_memory() {
    let files = Files::new("endless");
    let (count, last, status) = counted(files.limited("recheck -"), |stdin| {
        let part = vec![b'x'; 1 << 20];
        for _ in 0..100 {
            stdin.write_all(&part).unwrap();
        }
        stdin.write_all(b"\nv.text 4 3 different\n").unwrap();
    });
    let expected =
        "standard input: 1 of 2 lines hold; 0 hold only vacuously, 0 do not hold, 0 refused, 1 malformed, 0 not readable";
    assert_eq!((count, last.as_str(), status), (3, expected, 2));
}

/// A run over standard input that stays open: a bad line is reported at once. Answers what reads its answers.
fn begun(files: &Files, stdin: impl Into<Stdio>) -> (Child, BufReader<impl Read>) {
    let mut command = files.desk(&["recheck", "-"]);
    let mut child = command
        .stdin(stdin)
        .stdout(Stdio::piped())
        .stderr(Stdio::piped())
        .spawn()
        .unwrap();
    let said = BufReader::new(child.stdout.take().unwrap());
    (child, said)
}

/// Reads two lines, which have to be the report of this line.
fn assert_told(said: &mut impl BufRead, number: u32) {
    let mut told = String::new();
    said.read_line(&mut told).unwrap();
    said.read_line(&mut told).unwrap();
    let expected = format!("standard input:{number}:1: v.text 4 3 equal\n  the terms are different, element 4\n");
    assert_eq!(told, expected);
}

#[test]
fn a_reader_that_goes_away_ends_the_run() {
    let files = Files::new("gone");
    let (mut child, mut said) = begun(&files, Stdio::piped());
    let mut stdin = child.stdin.take().unwrap();
    stdin.write_all(b"v.text 4 3 different\nv.text 4 3 equal\n").unwrap();
    assert_told(&mut said, 2);
    drop(said);
    stdin.write_all(b"v.text 4 3 different\nv.text 4 3 equal\n").unwrap();
    // Standard input stays open, and the run ends all the same.
    let output = ended(Ok(child));
    let expected = "desk recheck: standard output was closed after line 3; the rest of the table is not judged\n";
    assert_eq!(
        (text(output.stderr).as_str(), output.status.code()),
        (expected, Some(74))
    );
    drop(stdin);
}

#[test]
fn a_table_that_cannot_be_read_to_its_end_is_summed_up() {
    let files = Files::new("broken");
    let (mut near, far) = UnixStream::pair().unwrap();
    // A socket that is closed with bytes unread breaks the connection.
    (&far).write_all(b"unread").unwrap();
    let (child, mut said) = begun(&files, OwnedFd::from(far));
    near.write_all(b"v.text 4 3 different\nv.text 4 3 equal\nv.text 4")
        .unwrap();
    assert_told(&mut said, 2);
    drop(near);
    let mut rest = String::new();
    said.read_to_string(&mut rest).unwrap();
    let expected =
        "standard input: not readable after line 2; 1 of 2 lines hold; 0 hold only vacuously, 1 do not hold, 0 refused, \
                    0 malformed, 0 not readable\n";
    assert_eq!(rest, expected);
    let output = ended(Ok(child));
    let error = text(output.stderr);
    assert!(
        error.starts_with("desk recheck: standard input: cannot be read ("),
        "{error}"
    );
    assert_eq!(output.status.code(), Some(66));
}

#[test]
fn an_interrupted_run_has_said_what_it_saw() {
    let files = Files::new("interrupted");
    let (mut child, mut said) = begun(&files, Stdio::piped());
    let mut stdin = child.stdin.take().unwrap();
    stdin.write_all(b"v.text 4 3 different\nv.text 4 3 equal\n").unwrap();
    assert_told(&mut said, 2);
    let sent = Instant::now();
    let killed = Command::new("kill")
        .args([format!("-{}", signals::INTERRUPT), child.id().to_string()])
        .status();
    assert!(killed.unwrap().success());
    let mut rest = String::new();
    said.read_to_string(&mut rest).unwrap();
    let expected =
        "standard input: interrupted after line 2; 1 of 2 lines hold; 0 hold only vacuously, 1 do not hold, 0 refused, \
                    0 malformed, 0 not readable\n";
    assert_eq!(rest, expected);
    let output = ended(Ok(child));
    assert_eq!((text(output.stderr).as_str(), output.status.code()), ("", Some(130)));
    assert!(sent.elapsed() < Duration::from_secs(5));
    drop(stdin);
}
