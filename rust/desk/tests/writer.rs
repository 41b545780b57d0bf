//! `desk new` and `desk add`: no file is lost, none is half written, and of additions at once each is made.

#![allow(clippy::unwrap_used, clippy::indexing_slicing)]

#[path = "support/place.rs"]
#[allow(dead_code, unused_imports)]
mod support;

use std::fs;
use std::os::unix::fs::{symlink, MetadataExt};
use support::{mode, run, set_mode, start, Place, Said};

/// The header of a vocabulary without roles or atoms.
const EMPTY: [u8; 8] = header(0);

/// The header of a vocabulary without roles, of so many atoms.
const fn header(atoms: u16) -> [u8; 8] {
    let [low, high] = atoms.to_le_bytes();
    [16, 2, 0, 0, 0, 0, low, high]
}

/// The eight bytes of a name.
fn name(label: u16) -> [u8; 8] {
    let [low, high] = label.to_le_bytes();
    [3, 0, low, high, 0, 0, 0, 0]
}

/// That nothing was done, and why not.
#[track_caller]
fn assert_failed(said: &Said, status: i32, why: &str) {
    assert_eq!((said.status, said.out.as_slice()), (Some(status), &b""[..]), "{said:?}");
    assert_eq!(said.err.lines().next(), Some(format!("desk {why}").as_str()));
}

#[test]
fn a_file_that_is_there_is_never_made_again() {
    let place = Place::new("there");
    place.put("x", "old");
    place.put_directory("inner");
    for (link, target) in [("link", "x"), ("dangling", "inner/y"), ("loop", "loop")] {
        symlink(target, place.path(link)).unwrap();
    }
    for (file, why) in [
        ("x", "is there already, and stays as it is"),
        ("link", "is there already, and stays as it is"),
        ("/dev/null", "is there already, and stays as it is"),
        ("/dev/fd/1", "is there already, and stays as it is"),
        ("/dev/fd/99", "is not open"),
        ("inner", "is a directory, not a file"),
        ("new/", "names a directory, not a file"),
        ("nowhere/x", "there is no such directory"),
        ("loop", "cannot be written (too many levels of symbolic links)"),
    ] {
        let said = run(&mut place.desk(["new", file, "--roles", "0"]));
        assert_failed(&said, 73, &format!("new: {file}: {why}"));
    }
    assert_eq!(place.get("x"), b"old");
    // A link whose target is to be made stays a link.
    assert_eq!(
        run(&mut place.desk(["new", "dangling", "--roles", "0"])).status,
        Some(0)
    );
    assert!(fs::symlink_metadata(place.path("dangling")).unwrap().is_symlink());
    assert_eq!(place.get("inner/y"), EMPTY);
    assert!(!place.has_temporary());
}

#[test]
fn a_new_file_has_the_callers_mode() {
    let place = Place::new("new-mode");
    for (mask, wanted) in [("022", 0o644), ("077", 0o600)] {
        let file = format!("x{mask}");
        let said = run(&mut place.shell(&format!("umask {mask}; exec \"$@\""), &["new", &file, "--roles", "0"]));
        assert_eq!((said.status, mode(&place.path(&file))), (Some(0), wanted));
    }
}

#[test]
fn of_two_runs_that_make_a_file_one_does() {
    let place = Place::new("new-twice");
    for round in 0..100 {
        let file = format!("x{round}");
        let runs = ["1", "2"].map(|roles| start(&mut place.desk(["new", &file, "--roles", roles])));
        let statuses = runs.map(|run| Said::from(run.wait_with_output().unwrap()).status);
        let made = statuses.iter().position(|status| *status == Some(0)).unwrap();
        assert_eq!(statuses[1 - made], Some(73));
        assert_eq!(place.get(&file), [16, 2, 0, 0, made as u8 + 1, 0, 0, 0]);
    }
    assert!(!place.has_temporary());
}

#[test]
fn of_additions_at_once_each_is_made() {
    let place = Place::new("at-once");
    place.put("x", EMPTY);
    let labels: Vec<u16> = (0..200).collect();
    std::thread::scope(|scope| {
        for labels in labels.chunks(50) {
            let place = &place;
            scope.spawn(move || {
                for label in labels {
                    let said = run(&mut place.desk(["add", "x", "term", &format!("c{label}")]));
                    assert_eq!((said.status, said.err.as_str()), (Some(0), ""));
                }
            });
        }
    });
    let bytes = place.get("x");
    assert_eq!(judge::check_vocabulary(&bytes), Ok(201));
    let mut names: Vec<&[u8]> = bytes[8..].chunks(8).collect();
    names.sort();
    let mut wanted: Vec<[u8; 8]> = labels.into_iter().map(name).collect();
    wanted.sort();
    assert_eq!(names, wanted);
    assert_eq!(place.names(), ["x"]);
}

#[test]
fn what_is_refused_leaves_the_file_as_it_was() {
    let place = Place::new("refused");
    let (one, full) = ([header(1), name(1)].concat(), (1..512).flat_map(name));
    let full = header(511).into_iter().chain(full).collect::<Vec<u8>>();
    let damaged = [[16, 2, 7, 0, 0, 0, 1, 0], name(1)].concat();
    let miscounted = [header(512), name(1)].concat();
    for (bytes, words, refusal) in [
        (&one, &["term", "c1"][..], "refused, 7, at record 2"),
        (&one, &["term", "4", "2"], "refused, 5, at record 2"),
        (&one, &["statement", "1", "0"], "refused, 5, at record 2"),
        (&one, &["term", "9", "1", "1"], "refused, 3, at record 2"),
        (&one, &["term", "1", "1"], "refused, 4, at record 2"),
        (&one, &["term", "7", "0", "1"], "refused, 6, at record 2"),
        (&one, &["term", "ObjectComplementOf", "c2"], "fault in 'c2', column 1"),
        (&full, &["term", "owl:Thing"], "refused, 27, at record 512"),
        (&full, &["term", "c1"], "refused, 27, at record 512"),
        (&damaged, &["term", "c2"], "refused, 8, at record 0"),
        (&miscounted, &["term", "c2"], "refused, 28, 1 atom"),
        (&one[..15].to_vec(), &["term", "c2"], "refused, 1"),
        (&Vec::new(), &["term", "c2"], "refused, 1"),
        (&[full.clone(), full.clone()].concat(), &["term", "c2"], "refused, 1"),
    ] {
        let path = place.put("x", bytes);
        let before = fs::metadata(&path).unwrap();
        let said = run(&mut place.desk([&["add", "x"], words].concat()));
        let text = String::from_utf8(said.out.clone()).unwrap();
        assert_eq!((said.status, said.err.as_str()), (Some(2), ""), "{said:?}");
        assert!(text.starts_with(&format!("x: {refusal}: ")), "{text}");
        let after = fs::metadata(&path).unwrap();
        assert_eq!(
            (after.ino(), after.mtime_nsec()),
            (before.ino(), before.mtime_nsec()),
            "{words:?}"
        );
        assert!(place.get("x") == *bytes);
        assert_eq!(place.names(), ["x"]);
    }
}

#[test]
fn what_cannot_be_added_to_is_told() {
    let place = Place::new("unfit");
    place.put("text", "vocabulary roles 0\nc1\n");
    place.put("bytes", EMPTY);
    place.put_directory("inner");
    for (file, status, why) in [
        ("-", 64, "FILE is a file to change, and '-' is none"),
        ("nowhere", 66, "nowhere: there is no such file"),
        ("inner", 66, "inner: is a directory, not a file"),
        ("/dev/null", 66, "/dev/null: is no regular file"),
        (
            "text",
            66,
            "text: is a text; add a line to it, or make a vocabulary of it ('desk assemble')",
        ),
    ] {
        let said = run(&mut place.desk(["add", file, "term", "c2"]));
        assert_failed(&said, status, &format!("add: {why}"));
    }
    // Behind a descriptor there is no name that a new file could take.
    let said = run(&mut place.shell("exec \"$@\" 3< bytes", &["add", "/dev/fd/3", "term", "c2"]));
    assert_failed(
        &said,
        73,
        "add: /dev/fd/3: is an open descriptor, and no file's own name",
    );
    set_mode(&place.path("bytes"), 0o444);
    let said = run(&mut place.desk(["add", "bytes", "term", "c2"]));
    assert_failed(&said, 73, "add: bytes: may not be written (permission denied)");
    assert_eq!(place.get("bytes"), EMPTY);
    assert!(!place.has_temporary());
}

#[test]
fn mode_and_links_stay() {
    let place = Place::new("add-mode");
    let path = place.put("x", EMPTY);
    set_mode(&path, 0o640);
    symlink("x", place.path("link")).unwrap();
    let said = run(&mut place.desk(["add", "link", "term", "c1"]));
    assert_eq!(said.status, Some(0), "{said:?}");
    assert!(fs::symlink_metadata(place.path("link")).unwrap().is_symlink());
    assert_eq!((mode(&path), place.get("x")), (0o640, [header(1), name(1)].concat()));
    assert_eq!(place.names(), ["link", "x"]);
}

#[test]
fn no_room_for_the_file_leaves_the_old_one() {
    let place = Place::new("add-limit");
    place.put("x", EMPTY);
    let line = "ulimit -f 0; exec \"$@\"";
    let said = run(&mut place.shell(line, &["add", "x", "term", "c1"]));
    assert_failed(&said, 73, "add: x: cannot be written (file too large)");
    let said = run(&mut place.shell(line, &["new", "y", "--roles", "0"]));
    assert_failed(&said, 73, "new: y: cannot be written (file too large)");
    assert_eq!((place.get("x"), place.names()), (EMPTY.to_vec(), vec!["x".to_string()]));
}
