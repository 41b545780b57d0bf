//! What `--json` writes is JSON: objects, one a line, the last with the same status as the command exits with. Checked on the
//! transcripts tests/desk.expected and tests/desk/*.expected, and on damaged inputs.

#![allow(clippy::unwrap_used, clippy::indexing_slicing, clippy::panic)]

#[path = "support/value.rs"]
mod value;

use std::path::{Path, PathBuf};
use std::process::Command;
use value::{fields, Value};

/// Whether a line has what every answer has: the command, the status and a verdict.
fn is_answer(line: &str, status: u64) -> bool {
    fields(line).is_some_and(|fields| {
        let text = |name| matches!(fields.get(name), Some(Value::Text(text)) if !text.is_empty());
        text("command") && text("verdict") && fields.get("status") == Some(&Value::Number(status))
    })
}

#[test]
fn the_reader_knows_what_is_json() {
    for good in [
        "{}",
        r#"{"a":[1,0,"\"\\\u001b",null,true,false,{}],"b":[]}"#,
        r#"{"é":"é"}"#,
    ] {
        assert!(fields(good).is_some(), "{good}");
    }
    for bad in [
        "",
        "[]",
        "{",
        "{}{}",
        "{\"a\"}",
        "{\"a\":}",
        "{\"a\":01}",
        "{\"a\":1,}",
        "{\"a\":[1,]}",
        "{\"a\":\"\n\"}",
        "{\"a\":\"\\x\"}",
        "{\"a\":1,\"a\":1}",
        "{\"a\":nul}",
        "{\"a\":\"\\u00\"}",
        "{\"a\":-1}",
        "{,}",
    ] {
        assert!(fields(bad).is_none(), "{bad}");
    }
}

/// Whether the answers of a transcript's line are JSON: desk was asked for it, and could write it.
fn is_asked(command: &str) -> bool {
    let written = !command.contains("/dev/full") && !command.contains(">&-");
    command.contains("--json") && !command.contains("-- --json") && written
}

/// Checks what a line of a transcript has answered, and counts the objects. Their last has the exit status, unless another
/// command comes after.
fn check_answer(command: &str, answer: &[&str], status: u64) -> usize {
    let objects: Vec<&str> = answer.iter().copied().filter(|line| line.starts_with('{')).collect();
    let is_log = command.contains("--format=sarif");
    assert_eq!(is_asked(command), !objects.is_empty() && !is_log, "{command}");
    for object in objects.iter().filter(|_| !is_log) {
        let own = match fields(object).and_then(|mut fields| fields.remove("status")) {
            Some(Value::Number(status)) => status,
            _ => panic!("{object}"),
        };
        assert!(is_answer(object, own), "{object}");
    }
    let is_last = !command
        .rsplit("--json")
        .next()
        .is_some_and(|rest| rest.contains([';', '|']));
    if let Some(last) = objects.last().filter(|_| is_last && !is_log) {
        assert!(is_answer(last, status), "{command}: {last}");
    }
    objects.len()
}

/// Checks the answers of a transcript, and counts the objects.
fn check_transcript(transcript: &str) -> usize {
    let (mut command, mut answer, mut found) = ("", Vec::new(), 0);
    for line in transcript.lines() {
        if let Some(words) = line.strip_prefix("$ ") {
            (command, answer) = (words, Vec::new());
        } else if let Some(status) = line.strip_prefix("exit ").and_then(|status| status.parse().ok()) {
            found += check_answer(command, &answer, status);
        } else {
            answer.push(line);
        }
    }
    found
}

#[test]
fn the_transcripts_have_json_where_it_was_asked_for() {
    let tests = Path::new(env!("CARGO_MANIFEST_DIR")).join("../../tests");
    let of_subjects = std::fs::read_dir(tests.join("desk")).unwrap();
    let of_subjects = of_subjects.map(|entry| entry.unwrap().path());
    let mut found = 0;
    for path in of_subjects.chain([tests.join("desk.expected")]) {
        found += check_transcript(&std::fs::read_to_string(path).unwrap());
    }
    assert!(found >= 120, "{found}");
}

/// Runs desk with --json on a file of these bytes, and answers whether it said JSON, the last line with its own exit status.
fn says_json(name: &str, bytes: &[u8], before: &[&str], after: &[&str]) -> bool {
    let path = PathBuf::from(env!("CARGO_TARGET_TMPDIR")).join(name);
    std::fs::write(&path, bytes).unwrap();
    let mut command = Command::new(env!("CARGO_BIN_EXE_desk"));
    let output = command
        .args(before)
        .arg(&path)
        .args(after)
        .arg("--json")
        .output()
        .unwrap();
    let text = String::from_utf8(output.stdout).unwrap();
    let status = output.status.code().unwrap();
    let last = text.lines().last().unwrap_or_default();
    let are_objects = text.lines().all(|line| fields(line).is_some());
    output.stderr.is_empty() && text.ends_with('\n') && are_objects && is_answer(last, status.try_into().unwrap())
}

#[test]
fn damaged_inputs_get_json_and_never_a_panic() {
    let vocabulary = include_bytes!("../../../examples/v.vocabulary");
    let script = include_bytes!("../../../examples/four-within-three.script");
    let path = concat!(env!("CARGO_MANIFEST_DIR"), "/../../examples/v.vocabulary");
    let output = concat!(env!("CARGO_TARGET_TMPDIR"), "/assembled").to_string();
    let mut seed = 0x2545_f491_u32;
    for case in 0..150 {
        let mut random = |bound: usize| {
            seed = seed.wrapping_mul(1_664_525).wrapping_add(1_013_904_223);
            (seed >> 8) as usize % bound
        };
        let mut bytes = if case % 2 == 0 {
            vocabulary.to_vec()
        } else {
            script.to_vec()
        };
        for _ in 0..random(4) {
            let at = random(bytes.len());
            bytes[at] = random(256) as u8;
        }
        if random(8) == 0 {
            bytes.truncate(random(bytes.len()));
        }
        let number = random(9).to_string();
        let name = format!("damaged \"{case}\"\n\u{1b}é");
        assert!(says_json(&name, &bytes, &["check"], &[]));
        assert!(says_json(&name, &bytes, &["show"], &[]));
        assert!(says_json(&name, &bytes, &["record"], &[&number]));
        assert!(says_json(&name, &bytes, &["compare"], &[&number, "3"]));
        assert!(says_json(&name, &bytes, &["verify", path], &[]));
        assert!(says_json(&name, &bytes, &["within"], &[&number, "3"]));
        assert!(says_json(&name, &bytes, &["why"], &[&number, "3", "--within"]));
        assert!(says_json(&name, &bytes, &["why"], &[&number, "3", "--all", "2"]));
        assert!(says_json(&name, &bytes, &["classify"], &[]));
        assert!(says_json(&name, &bytes, &["classify", path], &["--dot", &output]));
        assert!(says_json(&name, &bytes, &["columns"], &[&number]));
        assert!(says_json(&name, &bytes, &["recheck"], &[]));
        assert!(says_json(&name, &bytes, &["assemble", "-o", &output], &[]));
        assert!(says_json(&name, &bytes, &["new"], &["--roles", &number]));
        assert!(says_json(&name, &bytes, &["add"], &["term", "c1", &number]));
        assert!(says_json(&name, &bytes, &["add"], &["term", "5", &number, "2"]));
        assert!(says_json(&name, &bytes, &["add"], &["statement", &number, "c2"]));
        assert!(says_json(&name, &bytes, &["edition"], &[&number]));
        std::fs::remove_file(PathBuf::from(env!("CARGO_TARGET_TMPDIR")).join(name)).unwrap();
    }
}
