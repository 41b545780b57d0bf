//! Drawings of counter-models, as other programs read them.

#![allow(clippy::unwrap_used, clippy::indexing_slicing, clippy::panic)]

mod support;

use std::fs;
use std::process::{Command, Stdio};
use support::{root, Place};

/// Vocabularies, each with two terms that are different.
const DIFFERENT: [(&str, &str, &str); 5] = [
    ("vocabulary roles 0\nc1\nc2\n", "1", "2"),
    (
        "vocabulary roles 1\nc1\nObjectSomeValuesFrom(r0 c1)\nowl:Nothing\nSubClassOf(c1 #2)\n",
        "1",
        "3",
    ),
    (
        "vocabulary roles 1\nc1 -- <a> & \"b\" \\N ]]> -->\nc2 -- \u{5e9}\u{5dc}\u{5d5}\u{5dd} \u{7}\u{202e}\u{ffff}\n\
         ObjectSomeValuesFrom(r0 c1)\nObjectSomeValuesFrom(r0 c2)\n",
        "3",
        "4",
    ),
    (
        "vocabulary roles 2\nc1\nc2\nowl:Nothing\nObjectSomeValuesFrom(r0 c2)\nObjectSomeValuesFrom(r1 c1)\n\
         ObjectIntersectionOf(c1 c2)\nSubClassOf(#6 owl:Nothing)\nSubClassOf(c1 #4)\nSubClassOf(c2 #5)\nSubClassOf(c2 #4)\n",
        "1",
        "3",
    ),
    (
        "vocabulary roles 1\nc1 -- 0123456789 0123456789 0123456789 0123456789 0123456789 0123456789 0123456789 0123456789\n\
         ObjectAllValuesFrom(r0 c1)\nowl:Thing\n",
        "2",
        "3",
    ),
];

/// What a program says of a file; nothing where there is no such program.
fn read_by(program: &str, words: &[&str], place: &Place) -> Option<(bool, String)> {
    let mut command = Command::new(program);
    command.args(words).current_dir(&place.directory).stdin(Stdio::null());
    match command.output() {
        Ok(output) => Some((
            output.status.success(),
            String::from_utf8_lossy(&output.stderr).into_owned(),
        )),
        Err(_) => {
            eprintln!("skipped: there is no {program}");
            None
        }
    }
}

#[test]
fn other_programs_read_the_drawings() {
    let place = Place::new("drawings");
    for (text, a, b) in DIFFERENT {
        fs::write(place.file("v.text"), text).unwrap();
        let (said, status) = place.said(&format!("desk compare v.text {a} {b} -q --svg v.svg --dot v.dot"));
        assert_eq!((said.as_str(), status), ("", 1), "{text}");
        for (program, words) in [
            ("xmllint", &["--noout", "v.svg"][..]),
            ("rsvg-convert", &["-o", "v.png", "v.svg"]),
            ("dot", &["-Tsvg", "-o", "dot.svg", "v.dot"]),
        ] {
            let read = read_by(program, words, &place);
            assert!(
                read.clone().is_none_or(|(is_read, said)| is_read && said.is_empty()),
                "{text}: {read:?}"
            );
        }
    }
}

/// A fenced block of a document that is a file.
fn block(document: &str, name: &str) -> String {
    let (_, after) = document.split_once(&format!("```text file={name}\n")).unwrap();
    after.split_once("```").unwrap().0.to_string()
}

/// `DESK_WRITE=1` makes it again; look at it before you keep it.
#[test]
fn the_drawing_of_desk_md_is_what_desk_draws() {
    let place = Place::new("counter-model");
    let document = fs::read_to_string(root().join("docs/DESK.md")).unwrap();
    let command = "desk compare certificates.text 5 6 --svg counter-model.svg";
    assert!(document.contains(command));
    fs::write(place.file("certificates.text"), block(&document, "certificates.text")).unwrap();
    assert_eq!(place.said(command).1, 1);
    let drawn = fs::read(place.file("counter-model.svg")).unwrap();
    let path = root().join("docs/counter-model.svg");
    if std::env::var_os("DESK_WRITE").is_some() {
        fs::write(&path, &drawn).unwrap();
    }
    assert!(fs::read(&path).unwrap() == drawn, "docs/counter-model.svg");
}

#[test]
fn a_drawing_replaces_a_file_whole_or_not_at_all() {
    let place = Place::new("replaced");
    fs::write(place.file("v.text"), DIFFERENT[1].0).unwrap();
    fs::write(place.file("v.svg"), "before").unwrap();
    // No file may grow beyond 0 blocks.
    let (_, status) = place.said("trap '' XFSZ; ulimit -f 0; desk compare v.text 1 3 -q --svg v.svg");
    assert_eq!(status, 73);
    assert_eq!(fs::read_to_string(place.file("v.svg")).unwrap(), "before");
    assert_eq!(place.said("desk compare v.text 1 1 -q --svg v.svg").1, 0);
    assert_eq!(fs::read_to_string(place.file("v.svg")).unwrap(), "before");
    assert_eq!(place.said("desk compare v.text 1 3 -q --svg v.svg").1, 1);
    assert!(fs::read_to_string(place.file("v.svg")).unwrap().starts_with("<?xml "));
    let names: Vec<_> = fs::read_dir(&place.directory)
        .unwrap()
        .map(|entry| entry.unwrap().file_name())
        .collect();
    assert_eq!(names.len(), 2, "{names:?}");
}
