//! `desk check --format`: the log keeps the published structure of SARIF 2.1.0 (the properties that its schema requires or
//! allows, the values that it lists, and what the standard says of references between them), and says the same as the lines
//! for editors.

#![allow(clippy::unwrap_used, clippy::indexing_slicing)]

mod support;
#[path = "support/value.rs"]
mod value;

use std::collections::BTreeSet;
use std::fs;
use std::process::Output;
use support::Place;
use value::{fields, Value};

/// Files of every sort, one of them given twice and one missing; names that an address cannot have as they are.
const FILES: [&str; 10] = [
    "v.vocabulary",
    "two words.text",
    "refused.text",
    "refused.vocabulary",
    "short.vocabulary",
    "grün:#1%.text",
    "a.script.text",
    "missing.text",
    "two words.text",
    "long.text",
];

fn prepared(name: &str) -> Place {
    let place = Place::new(name);
    let faults: String = (0..30).map(|_| "Object\n").collect();
    for (file, text) in [
        ("two words.text", format!("vocabulary roles 0\n{faults}")),
        ("refused.text", "-- first\nvocabulary roles 0\nc1\n  c1\n".to_string()),
        (
            "grün:#1%.text",
            "vocabulary roles 0\nowl:Thing\nowl:Nothing\nSubClassOf(#1 #2)\n".to_string(),
        ),
        ("a.script.text", "script #1 within #1\na\n".to_string()),
        (
            "long.text",
            format!("vocabulary roles 0\n{}", "owl:Thing\n".repeat(600)),
        ),
    ] {
        fs::write(place.file(file), text).unwrap();
    }
    let examples = support::root().join("examples");
    fs::copy(examples.join("v.vocabulary"), place.file("v.vocabulary")).unwrap();
    fs::copy(
        examples.join("repeated-label.vocabulary"),
        place.file("refused.vocabulary"),
    )
    .unwrap();
    fs::write(place.file("short.vocabulary"), [16, 1, 0]).unwrap();
    place
}

fn check(place: &Place, format: &str, files: &[&str]) -> Output {
    let quoted: Vec<String> = files.iter().map(|file| format!("'{file}'")).collect();
    let words = format!("desk check --format={format} {}", quoted.join(" "));
    place.shell(&words).output().unwrap()
}

/// The log of files, which is one line.
fn log(place: &Place, files: &[&str]) -> Value {
    let output = check(place, "sarif", files);
    let text = String::from_utf8(output.stdout).unwrap();
    assert_eq!(text.lines().count(), 1);
    let log = Value::Object(fields(text.trim_end()).unwrap());
    assert_eq!(
        log.at("runs/0/invocations/0/exitCode").number(),
        Some(output.status.code().unwrap() as u64)
    );
    log
}

/// An object has to have some fields, and may have others.
fn has(value: &Value, required: &[&str], allowed: &[&str]) {
    let names = value.names();
    for name in required {
        assert!(names.contains(name), "no {name}: {value:?}");
    }
    for name in &names {
        assert!(required.contains(name) || allowed.contains(name), "{name}: {value:?}");
    }
}

fn is_level(value: &Value) {
    assert!(
        ["none", "note", "warning", "error"].contains(&value.text()),
        "{value:?}"
    );
}

fn is_message(value: &Value) {
    has(value, &["text"], &[]);
    assert!(!value.at("text").text().is_empty());
}

/// Whether the characters are those of an address; a first segment with a colon would be a scheme.
fn is_address(uri: &str) {
    let mut rest = uri;
    while let Some(at) = rest.find('%') {
        assert!(
            rest[at + 1..at + 3].bytes().all(|digit| digit.is_ascii_hexdigit()),
            "{uri}"
        );
        rest = &rest[at + 3..];
    }
    let plain = |c: char| c.is_ascii_alphanumeric() || "-._~/%".contains(c);
    assert!(!uri.is_empty() && uri.chars().all(plain), "{uri}");
}

fn check_location(run: &Value, location: &Value) {
    has(location, &["physicalLocation"], &[]);
    let physical = location.at("physicalLocation");
    has(physical, &["artifactLocation"], &["region"]);
    let artifact = physical.at("artifactLocation");
    has(artifact, &["uri", "index"], &[]);
    let index = artifact.at("index").number().unwrap();
    assert_eq!(run.at(&format!("artifacts/{index}/location/uri")), artifact.at("uri"));
    let region = physical.at("region");
    if region.find("startLine").is_some() {
        has(region, &["startLine", "startColumn"], &[]);
        assert!(region.at("startLine").number() >= Some(1) && region.at("startColumn").number() >= Some(1));
    } else if *region != Value::Null {
        has(region, &["byteOffset", "byteLength"], &[]);
    }
}

fn check_artifacts(run: &Value) {
    let mut seen = BTreeSet::new();
    for artifact in run.at("artifacts").items() {
        has(artifact, &["location", "roles"], &["length", "hashes"]);
        let uri = artifact.at("location/uri").text();
        is_address(uri);
        assert!(seen.insert(uri.to_string()), "{uri} is there twice");
        assert_eq!(
            artifact.at("roles").items(),
            [Value::Text("analysisTarget".to_string())]
        );
    }
}

fn check_rules(run: &Value) {
    let mut seen = BTreeSet::new();
    for rule in run.at("tool/driver/rules").items() {
        has(rule, &["id", "shortDescription", "defaultConfiguration"], &[]);
        is_message(rule.at("shortDescription"));
        is_level(rule.at("defaultConfiguration/level"));
        assert!(seen.insert(rule.at("id").text()), "{rule:?}");
    }
    assert_eq!(seen.len(), 11);
}

fn check_results(run: &Value) {
    for result in run.at("results").items() {
        has(result, &["ruleId", "ruleIndex", "level", "message", "locations"], &[]);
        is_level(result.at("level"));
        is_message(result.at("message"));
        let rule = result.at("ruleIndex").number().unwrap();
        let rule = run.at(&format!("tool/driver/rules/{rule}"));
        assert_eq!(rule.at("id"), result.at("ruleId"));
        assert_eq!(rule.at("defaultConfiguration/level"), result.at("level"));
        assert_eq!(result.at("locations").items().len(), 1);
        check_location(run, result.at("locations/0"));
    }
}

fn check_invocation(run: &Value) {
    let invocation = run.at("invocations/0");
    has(
        invocation,
        &["executionSuccessful", "exitCode", "toolExecutionNotifications"],
        &[],
    );
    let notifications = invocation.at("toolExecutionNotifications").items();
    for notification in notifications {
        has(notification, &["level", "message", "locations"], &[]);
        is_level(notification.at("level"));
        is_message(notification.at("message"));
        check_location(run, notification.at("locations/0"));
    }
    assert_eq!(
        *invocation.at("executionSuccessful"),
        Value::Truth(notifications.is_empty())
    );
}

/// The run of a log, whose structure is looked at.
fn checked(log: &Value) -> &Value {
    has(log, &["$schema", "version", "runs"], &[]);
    assert_eq!(log.at("version").text(), "2.1.0");
    assert_eq!(log.at("runs").items().len(), 1);
    let run = log.at("runs/0");
    has(run, &["tool", "invocations", "columnKind", "artifacts", "results"], &[]);
    has(run.at("tool"), &["driver"], &[]);
    has(run.at("tool/driver"), &["name", "version", "rules"], &[]);
    assert_eq!(run.at("columnKind").text(), "unicodeCodePoints");
    check_rules(run);
    check_artifacts(run);
    check_invocation(run);
    check_results(run);
    run
}

#[test]
fn the_log_keeps_the_structure_of_sarif() {
    let place = prepared("sarif-structure");
    let whole = log(&place, &FILES);
    let run = checked(&whole);
    assert_eq!(run.at("artifacts").items().len(), 9);
    assert_eq!(run.at("invocations/0/toolExecutionNotifications").items().len(), 1);
    let count = |id: &str| {
        let results = run.at("results").items();
        results.iter().filter(|result| result.at("ruleId").text() == id).count()
    };
    // 30 faults of a file that is given twice, and a text of another kind.
    assert_eq!(count("judge-fault"), 61);
    assert_eq!(
        (count("judge-7"), count("judge-1"), count("judge-contradiction")),
        (2, 2, 1)
    );
    for file in FILES {
        checked(&log(&place, &[file]));
    }
}

#[test]
fn the_log_has_the_hash_of_the_file_and_not_of_what_it_says() {
    let place = prepared("sarif-hashes");
    let whole = log(&place, &FILES);
    for file in ["v.vocabulary", "refused.text", "a.script.text", "short.vocabulary"] {
        let artifacts = whole.at("runs/0/artifacts").items();
        let artifact = artifacts
            .iter()
            .find(|one| one.at("location/uri").text() == file)
            .unwrap();
        let bytes = fs::read(place.file(file)).unwrap();
        assert_eq!(artifact.at("hashes/sha-256").text(), base::sha256::sha256(&bytes));
        assert_eq!(artifact.at("length").number(), Some(bytes.len() as u64));
    }
    // Of what is too long to be read as a whole nothing is said.
    fs::write(place.file("huge"), vec![16; 100_000]).unwrap();
    let huge = log(&place, &["huge"]);
    assert_eq!(huge.at("runs/0/artifacts/0").names(), ["location", "roles"]);
    assert_eq!(huge.at("runs/0/results/0/ruleId").text(), "judge-1");
}

/// The file, line, column, level and message of a line, as the patterns of Vim and of VS Code find them.
fn parts(line: &str) -> (String, u64, u64, String, String) {
    let mut parts = line.splitn(5, ':');
    let mut next = || parts.next().unwrap().trim().to_string();
    let (file, line, column, level, rest) = (next(), next(), next(), next(), next());
    (file, line.parse().unwrap(), column.parse().unwrap(), level, rest)
}

#[test]
fn lines_for_editors_say_what_the_log_says() {
    let place = prepared("sarif-lines");
    for file in FILES.into_iter().filter(|file| !file.contains(':')) {
        let output = check(&place, "gcc", &[file]);
        let text = String::from_utf8(output.stdout).unwrap();
        let log = log(&place, &[file]);
        let results = log.at("runs/0/results").items();
        assert_eq!(text.lines().count(), results.len(), "{file}");
        for (line, result) in text.lines().zip(results) {
            let (named, number, column, level, message) = parts(line);
            let region = result.at("locations/0/physicalLocation/region");
            assert_eq!((named.as_str(), level.as_str()), (file, result.at("level").text()));
            assert_eq!(number, region.at("startLine").number().unwrap_or(1));
            assert_eq!(column, region.at("startColumn").number().unwrap_or(1));
            let words = format!("{} [{}]", result.at("message/text").text(), result.at("ruleId").text());
            assert_eq!(message, words);
        }
        assert_eq!(
            output.status.code().unwrap() as u64,
            log.at("runs/0/invocations/0/exitCode").number().unwrap()
        );
    }
}
