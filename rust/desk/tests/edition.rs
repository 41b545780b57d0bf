//! `desk edition`: no file is lost or changed by the way, and what the other commands say does not hang on the edition.

#![allow(clippy::unwrap_used, clippy::indexing_slicing)]

#[path = "support/place.rs"]
#[allow(dead_code, unused_imports)]
mod support;

use judge::Edition;
use std::fs::{self, Metadata};
use std::os::unix::fs::{symlink, MetadataExt};
use std::path::Path;
use support::{mode, run, set_mode, Place, Said};

/// A filed vocabulary of edition 1, and the same of edition 2.
const ONE: &[u8] = include_bytes!("../../../examples/v.vocabulary");
const TWO: &[u8] = include_bytes!("../../../examples/v2.vocabulary");

/// What a run says on standard output, as text.
fn text(said: &Said) -> String {
    String::from_utf8(said.out.clone()).unwrap()
}

/// What shows that a file was not written to, nor replaced.
fn untouched(about: &Metadata) -> (u64, i64, i64) {
    (about.ino(), about.mtime(), about.mtime_nsec())
}

#[test]
fn a_file_is_converted_there_and_back_and_keeps_its_mode_and_its_links() {
    let place = Place::new("edition-mode");
    let path = place.put("x", ONE);
    set_mode(&path, 0o640);
    symlink("x", place.path("link")).unwrap();
    for (edition, bytes) in [("2", TWO), ("1", ONE), ("2", TWO)] {
        let said = run(&mut place.desk(["edition", "link", edition]));
        let expected = format!("link: converted to edition {edition}; a vocabulary of 6 records, 3 atoms\n");
        assert_eq!((said.status, text(&said)), (Some(0), expected));
        assert_eq!((place.get("x").as_slice(), mode(&path)), (bytes, 0o640));
        assert!(fs::symlink_metadata(place.path("link")).unwrap().is_symlink());
    }
    assert_eq!(place.names(), ["link", "x"]);
}

#[test]
fn a_file_that_has_the_edition_or_is_refused_is_not_touched() {
    let place = Place::new("edition-same");
    let miscounted = [&TWO[..6], &[2], &TWO[7..]].concat();
    for (bytes, edition, status, says) in [
        (ONE, "1", 0, "unchanged, edition 1 already"),
        (TWO, "2", 0, "unchanged, edition 2 already"),
        (&miscounted, "1", 2, "refused, 28, 3 atoms: "),
        (&miscounted, "2", 2, "refused, 28, 3 atoms: "),
        (&TWO[..40], "1", 2, "refused, 8, at record 0: "),
        (&TWO[..47], "1", 2, "refused, 1: "),
        (b"", "1", 2, "refused, 1: "),
    ] {
        let path = place.put("x", bytes);
        let before = fs::metadata(&path).unwrap();
        let said = run(&mut place.desk(["edition", "x", edition]));
        assert_eq!((said.status, said.err.as_str()), (Some(status), ""));
        assert!(text(&said).starts_with(&format!("x: {says}")), "{said:?}");
        assert_eq!(untouched(&fs::metadata(&path).unwrap()), untouched(&before), "{says}");
        assert!(place.get("x") == bytes && place.names() == ["x"]);
    }
}

#[test]
fn what_cannot_be_converted_is_told() {
    let place = Place::new("edition-unfit");
    place.put("text", "vocabulary roles 0\nc1\n");
    place.put("bytes", ONE);
    place.put_directory("inner");
    let advice = "is a text; its header says the edition, as 'vocabulary roles 1 edition 2'";
    for (file, status, why) in [
        ("-", 64, "FILE is a file to change, and '-' is none".to_string()),
        ("nowhere", 66, "nowhere: there is no such file".to_string()),
        ("inner", 66, "inner: is a directory, not a file".to_string()),
        ("/dev/null", 66, "/dev/null: is no regular file".to_string()),
        ("text", 66, format!("text: {advice}")),
    ] {
        let said = run(&mut place.desk(["edition", file, "2"]));
        assert_eq!((said.status, said.out.as_slice()), (Some(status), &b""[..]), "{said:?}");
        assert_eq!(said.err.lines().next(), Some(format!("desk edition: {why}").as_str()));
    }
    set_mode(&place.path("bytes"), 0o444);
    let said = run(&mut place.desk(["edition", "bytes", "2"]));
    let why = "desk edition: bytes: may not be written (permission denied)\n";
    assert_eq!((said.status, said.err.as_str()), (Some(73), why));
    let said = run(&mut place.shell("ulimit -f 0; chmod 644 bytes; exec \"$@\"", &["edition", "bytes", "2"]));
    let why = "desk edition: bytes: cannot be written (file too large)\n";
    assert_eq!((said.status, said.err.as_str()), (Some(73), why));
    assert_eq!(place.get("bytes"), ONE);
    assert!(!place.has_temporary());
}

/// Conversions and additions at once: none undoes another, and the header stays true.
#[test]
fn of_conversions_and_additions_at_once_each_is_made() {
    let place = Place::new("edition-at-once");
    place.put("x", ONE);
    let succeeds = |words: &[&str]| {
        let said = run(&mut place.desk(words));
        assert_eq!((said.status, said.err.as_str()), (Some(0), ""));
    };
    std::thread::scope(|scope| {
        for first in [100, 200] {
            scope.spawn(move || {
                (first..first + 50).for_each(|label| succeeds(&["add", "x", "term", &format!("c{label}")]))
            });
        }
        for edition in ["1", "2"] {
            scope.spawn(move || (0..50).for_each(|_| succeeds(&["edition", "x", edition])));
        }
    });
    let bytes = place.get("x");
    assert_eq!(judge::check_vocabulary(&bytes), Ok(106));
    assert_eq!(judge::atoms(&bytes), Ok(103));
    assert_eq!(place.names(), ["x"]);
}

/// A vocabulary of the examples, with questions about it: two terms, and a script.
const ASKED: [(&str, [&str; 2], &str); 5] = [
    ("v.vocabulary", ["4", "3"], "four-within-three.script"),
    ("both-ways.vocabulary", ["4", "3"], "unfinished.script"),
    ("relief/terms.vocabulary", ["11", "14"], "relief/proof.script"),
    ("vertebrate/terms.vocabulary", ["4", "12"], "vertebrate/proof.script"),
    ("cat-owner/terms.vocabulary", ["3", "9"], "cat-owner/repeated.script"),
];

#[test]
fn answers_are_the_same_in_both_editions() {
    let place = Place::new("edition-answers");
    let examples = Path::new(env!("CARGO_MANIFEST_DIR")).join("../../examples");
    for (vocabulary, [a, b], script) in ASKED {
        let script = examples.join(script).to_string_lossy().into_owned();
        let filed = fs::read(examples.join(vocabulary)).unwrap();
        assert_eq!(judge::edition(&filed), Ok(Edition::One));
        place.put("x", &filed);
        place.put(
            "table",
            format!("x {a} {b} equal\nx {a} {b} within\nx {b} {a} within\n"),
        );
        let questions = [
            &["compare", "x", a, b, "--survivors", "written"][..],
            &["within", "x", a, b],
            &["within", "x", b, a],
            &["classify", "x", "--dot", "drawn"],
            &["verify", "x", &script, "--trace"],
            &["columns", "x"],
            &["recheck", "table", "--explain"],
        ];
        let all = || {
            let said = questions.iter().flat_map(|words| {
                ["--quiet", "--json", "--color=never"]
                    .map(|option| run(&mut place.desk([words, &[option][..]].concat())))
            });
            (said.collect::<Vec<Said>>(), place.get("written"), place.get("drawn"))
        };
        let one = all();
        assert!(
            one.0.iter().all(|said| matches!(said.status, Some(0 | 1))),
            "{vocabulary}"
        );
        assert_eq!(run(&mut place.desk(["edition", "x", "2"])).status, Some(0));
        assert_eq!(judge::edition(&place.get("x")), Ok(Edition::Two));
        assert!(one == all(), "{vocabulary}");
    }
}
