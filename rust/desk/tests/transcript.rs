//! The command as people call it. tests/desk.expected is a transcript, and so is each file of tests/desk: each line that
//! begins with '$ ' is run by a shell in one new directory for each file, in order, and what it prints (both streams) and its
//! exit status have to be what stands below it. The examples of docs/DESK.md and docs/FORMATS.md are run in the same way, over
//! copies of examples/.
//!
//! `DESK_WRITE=1 cargo test --release -p desk --test transcript` makes the transcripts again; read the difference before you
//! keep it.

#![allow(clippy::unwrap_used, clippy::indexing_slicing, clippy::panic)]

mod support;

use std::fs;
use std::path::Path;
use support::{root, Place};

/// The first line in which two texts differ, for a message.
fn difference(wanted: &str, found: &str) -> String {
    let (mut wanted_lines, mut found_lines, mut number) = (wanted.lines(), found.lines(), 0);
    loop {
        number += 1;
        let (a, b) = (wanted_lines.next(), found_lines.next());
        if a != b || a.is_none() {
            return format!(
                "line {number}: wanted\n{}\nfound\n{}",
                a.unwrap_or("(end)"),
                b.unwrap_or("(end)")
            );
        }
    }
}

/// Runs the commands of a transcript; lines that begin with '# ' are kept.
fn run(place: &Place, transcript: &str) -> String {
    let mut made = String::new();
    for line in transcript.lines() {
        if line.starts_with("# ") {
            made.push_str(&format!("{line}\n\n"));
        } else if let Some(words) = line.strip_prefix("$ ") {
            let (said, status) = place.said(words);
            made.push_str(&format!("{line}\n{said}exit {status}\n\n"));
        }
    }
    made
}

/// Runs a transcript of at least so many commands.
fn check_transcript(place: &Place, path: &Path, least: usize) {
    let transcript = fs::read_to_string(path).unwrap();
    let made = run(place, &transcript);
    if std::env::var_os("DESK_WRITE").is_some() {
        fs::write(path, &made).unwrap();
    } else {
        let name = path.display();
        assert!(made == transcript, "{name}: {}", difference(&transcript, &made));
    }
    let commands = made.matches("\n$ ").count();
    assert!(commands >= least, "{commands} commands are too few");
}

#[test]
fn desk_says_what_the_transcript_has() {
    check_transcript(&Place::new("transcript"), &root().join("tests/desk.expected"), 300);
}

/// Each of these has copies of the examples.
#[test]
fn desk_says_what_the_transcripts_of_each_subject_have() {
    for entry in fs::read_dir(root().join("tests/desk")).unwrap() {
        let path = entry.unwrap().path();
        let name = path.file_stem().unwrap().to_string_lossy().into_owned();
        check_transcript(&with_examples(&name), &path, 4);
    }
}

/// A place with copies of the examples.
fn with_examples(name: &str) -> Place {
    let place = Place::new(name);
    for entry in fs::read_dir(root().join("examples")).unwrap() {
        let path = entry.unwrap().path();
        if path
            .extension()
            .is_some_and(|end| end == "vocabulary" || end == "script")
        {
            fs::copy(&path, place.file(path.file_name().unwrap().to_str().unwrap())).unwrap();
        }
    }
    place
}

/// A document's lines, each with whether it stands in a fenced block; fenced blocks that are files (```text file=NAME) are
/// written.
fn prepare<'a>(place: &Place, document: &'a str) -> Vec<(&'a str, bool)> {
    let (mut lines, mut file, mut fenced) = (Vec::new(), None, false);
    for line in document.lines() {
        let info = line.strip_prefix("```");
        lines.push((line, fenced || info.is_some()));
        if let Some(info) = info {
            if let Some((name, text)) = file.take() {
                fs::write(place.file(name), text).unwrap();
            }
            fenced = !fenced;
            let named = info.split_once("file=").filter(|_| fenced);
            file = named.map(|(_, name)| (name, String::new()));
        } else if let Some((_, text)) = &mut file {
            text.push_str(&format!("{line}\n"));
        }
    }
    lines
}

/// Runs the examples of a document: an indented line that begins with '$ ' is a command, and the indented lines after it
/// are what it prints.
fn check_document(place: &Place, name: &str, least: usize) {
    let path = root().join("docs").join(name);
    let document = fs::read_to_string(&path).unwrap();
    let mut made = String::new();
    let mut commands = 0;
    let lines = prepare(place, &document);
    let mut lines = lines.into_iter().peekable();
    while let Some((line, fenced)) = lines.next() {
        made.push_str(&format!("{line}\n"));
        let Some(words) = line.strip_prefix("    $ ").filter(|_| !fenced) else {
            continue;
        };
        commands += 1;
        while lines
            .next_if(|(line, fenced)| !fenced && line.starts_with("    ") && !line.starts_with("    $ "))
            .is_some()
        {}
        for said in place.said(words).0.lines() {
            made.push_str(&format!("    {said}\n"));
        }
    }
    if std::env::var_os("DESK_WRITE").is_some() {
        fs::write(&path, &made).unwrap();
    } else {
        assert!(made == document, "{name}: {}", difference(&document, &made));
    }
    assert!(commands >= least, "{name} has {commands} commands");
}

#[test]
fn the_examples_of_desk_md_are_what_desk_says() {
    let place = with_examples("desk.md");
    let (text, _) = place.said("desk show v.vocabulary");
    fs::write(place.file("v.text"), text).unwrap();
    fs::copy(place.file("v.vocabulary"), place.file("filed.vocabulary")).unwrap();
    check_document(&place, "DESK.md", 8);
}

#[test]
fn the_examples_of_formats_md_are_what_desk_says() {
    check_document(&Place::new("formats.md"), "FORMATS.md", 20);
}
