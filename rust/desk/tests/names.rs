//! The names beside a vocabulary: they are never shown of other bytes, and a change of the vocabulary does not lose them.

#![allow(clippy::unwrap_used, clippy::indexing_slicing)]

#[path = "support/place.rs"]
#[allow(dead_code, unused_imports)]
mod support;

use std::fs;
use std::os::unix::fs::symlink;
use support::{mode, run, set_mode, start, Place, Said};

const TEXT: &str = "vocabulary roles 1\nc1\nc2\nname c1 \"returned sample\"\nrole r0 \"owns\"\n";

/// A place with a text, and the vocabulary that is made of it with its names.
fn with_names(name: &str) -> Place {
    let place = Place::new(name);
    place.put("v.text", TEXT);
    let said = run(&mut place.desk(["assemble", "v.text", "-o", "v.vocabulary"]));
    assert_eq!(said.status, Some(0), "{said:?}");
    place
}

/// What `record` says of the first record, and on standard error.
fn first_record(place: &Place) -> (String, String) {
    let said = run(&mut place.desk(["record", "v.vocabulary", "1"]));
    assert_eq!(said.status, Some(0), "{said:?}");
    let out = String::from_utf8(said.out).unwrap();
    (out.lines().next().unwrap().to_string(), said.err)
}

#[track_caller]
fn assert_named(place: &Place) {
    let wanted = ("1: \"returned sample\" (c1)".to_string(), String::new());
    assert_eq!(first_record(place), wanted);
}

#[track_caller]
fn assert_failed(said: &Said, why: &str) {
    assert_eq!(said.status, Some(73), "{said:?}");
    assert_eq!(said.err, format!("desk {why}\n"));
}

/// Additions at once are all made, and the names fit after each.
#[test]
fn additions_at_once_keep_the_names() {
    let place = with_names("at-once");
    for round in 0..4 {
        let labels: Vec<String> = (0..8).map(|i| format!("c{}", 10 + 8 * round + i)).collect();
        let runs = labels
            .iter()
            .map(|label| start(&mut place.desk(["add", "v.vocabulary", "term", label])));
        let runs: Vec<_> = runs.collect();
        for run in runs {
            let output = run.wait_with_output().unwrap();
            assert!(output.status.success(), "{output:?}");
            assert_eq!(String::from_utf8_lossy(&output.stderr), "");
        }
        assert_named(&place);
    }
    assert_eq!(place.get("v.vocabulary").len(), 8 * (3 + 32));
    assert!(!place.has_temporary());
}

/// A run that is killed between its two writes leaves the names of the new bytes beside the old ones, or the other way
/// round: both fit. The change before the last does not.
#[test]
fn a_run_may_end_between_its_writes() {
    let place = with_names("between");
    let steps: Vec<(Vec<u8>, Vec<u8>)> = (0..3)
        .map(|step| {
            if step > 0 {
                let said = run(&mut place.desk(["add", "v.vocabulary", "term", "owl:Thing"]));
                assert_eq!(said.status, Some(0), "{said:?}");
            }
            (place.get("v.vocabulary"), place.get("v.vocabulary.names"))
        })
        .collect();
    for (bytes, names, fits) in [
        (0, 1, true),
        (1, 1, true),
        (1, 2, true),
        (2, 2, true),
        (0, 2, false),
        (1, 0, false),
    ] {
        place.put("v.vocabulary", &steps[bytes].0);
        place.put("v.vocabulary.names", &steps[names].1);
        let (first, err) = first_record(&place);
        assert_eq!(first.contains("returned"), fits, "{bytes} {names}");
        assert_eq!(err.is_empty(), fits, "{err}");
    }
}

/// Every single byte that is changed in the vocabulary makes the names unfit, and no status other than without them.
#[test]
fn other_bytes_have_no_names() {
    let place = with_names("other");
    let (bytes, names) = (place.get("v.vocabulary"), place.get("v.vocabulary.names"));
    for at in 0..bytes.len() {
        let mut changed = bytes.clone();
        changed[at] ^= 1;
        place.put("v.vocabulary", &changed);
        place.put("v.vocabulary.names", &names);
        let with = run(&mut place.desk(["show", "v.vocabulary"]));
        fs::remove_file(place.path("v.vocabulary.names")).unwrap();
        let without = run(&mut place.desk(["show", "v.vocabulary"]));
        assert_eq!((&with.out, with.status), (&without.out, without.status), "{at}");
        assert!(with
            .err
            .contains("v.vocabulary.names: note: is of other bytes than v.vocabulary has"));
    }
}

/// What people have written into the file of names stays there, but for its first line.
#[test]
fn a_change_keeps_what_is_written_by_hand() {
    let place = with_names("by-hand");
    let names = String::from_utf8(place.get("v.vocabulary.names")).unwrap();
    let (first, rest) = names.split_once('\n').unwrap();
    let by_hand = format!("\u{feff}{first} -- first\r\n\r\n-- by hand\r\n{rest}");
    place.put("v.vocabulary.names", &by_hand);
    set_mode(&place.path("v.vocabulary.names"), 0o640);
    assert_named(&place);
    let said = run(&mut place.desk(["edition", "v.vocabulary", "1"]));
    assert_eq!((said.status, said.err.as_str()), (Some(0), ""));
    let after = String::from_utf8(place.get("v.vocabulary.names")).unwrap();
    assert_eq!(after.split_once('\n').unwrap().1, by_hand.split_once('\n').unwrap().1);
    assert_eq!(mode(&place.path("v.vocabulary.names")), 0o640);
    assert_named(&place);
}

/// Names that may not be written keep the vocabulary from being changed; those that may not be read are noted.
#[test]
fn what_may_not_be_written_or_read_is_told() {
    let place = with_names("bound");
    let (bytes, names) = (place.get("v.vocabulary"), place.path("v.vocabulary.names"));
    place.put("w.text", format!("{TEXT}c3\n"));
    set_mode(&names, 0o444);
    for words in [
        ["add", "v.vocabulary", "term", "c9"],
        ["assemble", "w.text", "-o", "v.vocabulary"],
    ] {
        let why = format!(
            "{}: v.vocabulary.names: may not be written (permission denied)",
            words[0]
        );
        assert_failed(&run(&mut place.desk(words)), &why);
        assert_eq!(place.get("v.vocabulary"), bytes);
    }
    set_mode(&names, 0);
    let (first, err) = first_record(&place);
    assert_eq!(first, "1: c1");
    let note = "may not be read (permission denied), so that its names are not used";
    assert_eq!(err, format!("v.vocabulary.names: note: {note}\n"));
}

/// Nothing is written over by names: not the text, nor the vocabulary, by whatever name.
#[test]
fn names_are_written_over_nothing() {
    let place = with_names("over");
    let names = place.path("v.vocabulary.names");
    let bytes = place.get("v.vocabulary");
    place.put("w.text", format!("{TEXT}c3\n"));
    for (target, why) in [
        ("w.text", "is an input, and stays as it is"),
        ("v.vocabulary", "is v.vocabulary itself, beside which names are kept"),
    ] {
        for link in [true, false] {
            fs::remove_file(&names).unwrap();
            match link {
                true => symlink(target, &names).unwrap(),
                false => fs::hard_link(place.path(target), &names).unwrap(),
            }
            let said = run(&mut place.desk(["assemble", "w.text", "-o", "v.vocabulary"]));
            assert_failed(&said, &format!("assemble: v.vocabulary.names: {why}"));
            assert_eq!(place.get("v.vocabulary"), bytes);
            assert_eq!(place.get("w.text"), format!("{TEXT}c3\n").as_bytes());
        }
    }
    // Where the vocabulary is made at the end of the link, it stays.
    for file in ["v.vocabulary", "v.vocabulary.names"] {
        fs::remove_file(place.path(file)).unwrap();
    }
    symlink("v.vocabulary", &names).unwrap();
    let said = run(&mut place.desk(["assemble", "v.text", "-o", "v.vocabulary"]));
    assert_failed(
        &said,
        "assemble: v.vocabulary.names: is v.vocabulary itself, beside which names are kept",
    );
    assert_eq!(place.get("v.vocabulary"), bytes);
}

/// The answer of a table is the same for every number of workers, and each file's note is told once.
#[test]
fn each_note_is_told_once() {
    let place = with_names("once");
    let names = place.get("v.vocabulary.names");
    place.put("w.vocabulary", [16, 1, 0, 0, 0, 0, 0, 0, 3, 0, 1, 0, 0, 0, 0, 0]);
    place.put("w.vocabulary.names", names);
    place.put(
        "t.table",
        "w.vocabulary 1 1 equal\nv.vocabulary 1 2 equal\n".repeat(300),
    );
    for jobs in ["1", "4"] {
        let said = run(&mut place.desk(["recheck", "t.table", "--explain", "-j", jobs]));
        assert_eq!(said.status, Some(1));
        assert_eq!(said.err.matches("note").count(), 1, "{}", said.err);
        let out = String::from_utf8(said.out).unwrap();
        assert_eq!(out.matches("A: term 1, \"returned sample\" (c1)").count(), 300);
    }
}
