//! No file is ever lost or half written: outputs, whatever else happens at the same time, and standard streams.

#![allow(clippy::unwrap_used, clippy::indexing_slicing)]

#[path = "support/place.rs"]
mod support;

use std::fs::{self, File};
use std::io::Write;
use std::os::unix::fs::{chown, symlink, FileTypeExt, MetadataExt};
use std::path::Path;
use std::process::{Command, Stdio};
use std::sync::atomic::{AtomicBool, Ordering};
use std::time::{Duration, Instant};
use support::{
    end, ended_by, is_root, mode, run, run_with, send, set_mode, skipped, start, Place, Said, HANGUP, INTERRUPT, KILL,
    TERMINATE,
};

/// The text of a vocabulary of so many names, the first of which has this label, and its bytes.
fn vocabulary(first: u16, names: u16) -> (String, Vec<u8>) {
    let mut text = "vocabulary roles 0\n".to_string();
    let [low, high] = names.to_le_bytes();
    let mut bytes = vec![16, 2, 0, 0, 0, 0, low, high];
    for label in first..first + names {
        text += &format!("c{label}\n");
        let [low, high] = label.to_le_bytes();
        bytes.extend([3, 0, low, high, 0, 0, 0, 0]);
    }
    (text, bytes)
}

/// A directory with two texts, `a` and `b`, and the bytes that they stand for: of different lengths, with no name in common.
fn two_texts(name: &str) -> (Place, [Vec<u8>; 2]) {
    texts_in(Place::new(name))
}

/// Puts the two texts into a directory.
fn texts_in(place: Place) -> (Place, [Vec<u8>; 2]) {
    let [a, b] = [vocabulary(1, 500), vocabulary(1000, 300)];
    place.put("a", a.0);
    place.put("b", b.0);
    (place, [a.1, b.1])
}

/// That nothing was said but why there is no output, with the status of that.
#[track_caller]
fn assert_no_output(said: &Said, why: &str) {
    assert_eq!(said.err, format!("desk {why}\n"));
    assert_eq!((said.status, said.out.as_slice()), (Some(73), &b""[..]));
}

#[test]
fn of_two_runs_at_once_one_wins() {
    let (place, whole) = two_texts("two");
    for round in 0..300 {
        let runs = ["a", "b"].map(|text| start(&mut place.desk(["assemble", text, "-o", "x"])));
        for run in runs {
            let said = Said::from(run.wait_with_output().unwrap());
            assert_eq!((said.status, said.err.as_str()), (Some(0), ""));
        }
        let found = place.get("x");
        assert!(
            whole.contains(&found),
            "round {round}: nobody wrote these {} bytes",
            found.len()
        );
        assert_eq!(place.names(), ["a", "b", "x"]);
    }
}

#[test]
fn a_reader_sees_whole_files_only() {
    let (place, whole) = two_texts("reader");
    place.put("x", &whole[1]);
    let (place, whole, done) = (&place, &whole, &AtomicBool::new(false));
    std::thread::scope(|scope| {
        let reader = scope.spawn(move || {
            let (mut changes, mut last) = (0, whole[1].clone());
            while !done.load(Ordering::Relaxed) {
                let found = place.get("x");
                assert!(whole.contains(&found), "a part of {} bytes", found.len());
                changes += usize::from(found != last);
                last = found;
            }
            changes
        });
        for text in ["a", "b"].iter().cycle().take(200) {
            assert_eq!(run(&mut place.desk(["assemble", text, "-o", "x"])).status, Some(0));
        }
        done.store(true, Ordering::Relaxed);
        let changes = reader.join().unwrap();
        assert!(changes > 20, "{changes}");
    });
}

#[test]
fn a_file_size_limit_is_an_error() {
    let (place, whole) = two_texts("limit");
    place.put("x", &whole[1]);
    for limit in [0, 1] {
        let line = format!("ulimit -f {limit}; exec \"$@\"");
        let too_large = "cannot be written (file too large)";
        let said = run(&mut place.shell(&line, &["assemble", "a", "-o", "x"]));
        assert_no_output(&said, &format!("assemble: x: {too_large}"));
        let said = run(&mut place.shell(&line, &["assemble", "a", "-o", "new"]));
        assert_no_output(&said, &format!("assemble: new: {too_large}"));
        assert_eq!(place.get("x"), whole[1]);
        assert_eq!(place.names(), ["a", "b", "x"]);
    }
    let said = run(&mut place.shell("ulimit -f 0; exec \"$@\" > shown", &["show", "x"]));
    assert_eq!(said.err, "desk show: the answer cannot be written (file too large)\n");
    assert_eq!(said.status, Some(74));
}

/// A script of more than a page, from a text that has no meaning.
const LONG_SCRIPT: usize = 1000;

#[test]
fn a_full_disk_is_an_error() {
    let (place, _) = two_texts("full-device");
    let said = run(&mut place.desk(["assemble", "a", "-o", "/dev/full"]));
    assert_no_output(
        &said,
        "assemble: /dev/full: cannot be written (no space left on device)",
    );
    let (place, whole) = texts_in(Place::of_caller("full"));
    place.put("old", &whole[0]);
    place.put(
        "text",
        format!("script #1 within #2\n{}", "raw 1 0 0 0 0 0 0 0\n".repeat(LONG_SCRIPT)),
    );
    fs::create_dir(place.path("disk")).unwrap();
    // The disk is seen by these processes alone, and goes with them. 77: none can be made.
    let line = "mount -t tmpfs -o size=64k none disk 2> /dev/null || exit 77
        cp old disk/x; cat /dev/zero > disk/filler 2> /dev/null
        \"$@\"; status=$?
        cmp old disk/x || exit 1
        [ \"$(ls -A disk)\" = \"$(printf 'filler\\nx')\" ] || exit 2
        exit $status";
    let shell = place.shell(line, &["assemble", "text", "--force", "-o", "disk/x"]);
    let mut command = Command::new("unshare");
    command
        .arg(if is_root() { "-m" } else { "-rm" })
        .arg("sh")
        .args(shell.get_args());
    match command.current_dir(place.path("")).output().map(Said::from) {
        Ok(said) if said.status != Some(77) && !said.err.starts_with("unshare:") => {
            assert_no_output(&said, "assemble: disk/x: cannot be written (no space left on device)");
        }
        other => skipped(&format!("a full disk, since none can be made here: {other:?}")),
    }
}

/// That a run which would write one of its inputs does not.
#[track_caller]
fn assert_input_stays(place: &Place, input: &str, said: &Said, why: &str, before: &[u8]) {
    assert_no_output(said, &format!("{why}: is an input, and stays as it is"));
    assert_eq!(place.get(input), before);
    assert!(!place.has_temporary());
}

#[test]
fn a_source_is_never_written_over() {
    let (place, whole) = two_texts("source");
    let source = place.get("a");
    fs::hard_link(place.path("a"), place.path("hard")).unwrap();
    symlink("a", place.path("soft")).unwrap();
    symlink("soft", place.path("softer")).unwrap();
    let from_file = || Stdio::from(File::open(place.path("a")).unwrap());
    for output in ["a", "./a", "hard", "soft", "softer"] {
        let why = format!("assemble: {output}");
        for text in ["a", "hard", "softer"] {
            let said = run(&mut place.desk(["assemble", text, "-o", output]));
            assert_input_stays(&place, "a", &said, &why, &source);
        }
        for text in ["-", "/dev/stdin", "/dev/fd/0"] {
            let output = place.desk(["assemble", text, "-o", output]).stdin(from_file()).output();
            assert_input_stays(&place, "a", &output.unwrap().into(), &why, &source);
        }
    }
    for text in ["a", "-", "/dev/stdin"] {
        let output = place
            .desk(["assemble", text, "-o", "/dev/stdin"])
            .stdin(from_file())
            .output();
        assert_input_stays(&place, "a", &output.unwrap().into(), "assemble: /dev/stdin", &source);
    }
    let mut forced = place.desk(["assemble", "a", "--force", "--json", "-o", "hard"]);
    assert_eq!(run(&mut forced).status, Some(73));
    assert_eq!(place.get("a"), source);
    // Another file of the same bytes is none of the inputs.
    place.put("copy", &source);
    assert_eq!(run(&mut place.desk(["assemble", "a", "-o", "copy"])).status, Some(0));
    assert_eq!(place.get("copy"), whole[0]);
}

#[test]
fn survivors_never_take_an_inputs_place() {
    let place = Place::new("survivors");
    let (text, bytes) = vocabulary(1, 5);
    place.put("text", &text);
    place.put("v", &bytes);
    for input in ["text", "v"] {
        fs::hard_link(place.path(input), place.path(&format!("hard-{input}"))).unwrap();
        symlink(input, place.path(&format!("soft-{input}"))).unwrap();
        for output in [input.to_string(), format!("hard-{input}"), format!("soft-{input}")] {
            let why = format!("compare: {output}");
            let words = ["compare", "v", "1", "2", "--words", "text", "--survivors", &output];
            let said = run(&mut place.desk(words));
            assert_input_stays(
                &place,
                input,
                &said,
                &why,
                &if input == "v" {
                    bytes.clone()
                } else {
                    text.clone().into()
                },
            );
        }
    }
    for output in ["v", "hard-v", "soft-v", "/dev/stdin"] {
        let mut command = place.desk(["compare", "-", "1", "2", "--survivors", output]);
        let said = command
            .stdin(File::open(place.path("v")).unwrap())
            .output()
            .unwrap()
            .into();
        assert_input_stays(&place, "v", &said, &format!("compare: {output}"), &bytes);
    }
    let said = run(&mut place.desk(["compare", "v", "1", "2", "--survivors", "new"]));
    assert_eq!((said.status, place.get("new").len()), (Some(1), 512));
}

#[test]
fn a_drawing_never_takes_an_inputs_place() {
    let place = Place::new("drawing");
    let (text, bytes) = vocabulary(1, 5);
    place.put("text", &text);
    place.put("v", &bytes);
    for (input, before) in [("text", text.as_bytes()), ("v", &bytes)] {
        fs::hard_link(place.path(input), place.path(&format!("hard-{input}"))).unwrap();
        symlink(input, place.path(&format!("soft-{input}"))).unwrap();
        for output in [input.to_string(), format!("hard-{input}"), format!("soft-{input}")] {
            let said = run(&mut place.desk(["classify", "-q", "v", "text", "--dot", &output]));
            assert_input_stays(&place, input, &said, &format!("classify: {output}"), before);
            let said = run(&mut place.desk(["classify", "-q", "v", "--words", "text", "--dot", &output]));
            assert_input_stays(&place, input, &said, &format!("classify: {output}"), before);
        }
    }
}

#[test]
fn a_drawing_is_whole_or_the_old_file_stays() {
    let place = Place::new("whole");
    place.put("v", vocabulary(1, 5).1);
    place.put("w", vocabulary(7, 12).1);
    place.put("cut", [16, 1, 0]);
    let old = vec![b'x'; 5000];
    place.put("x", &old);
    // One is refused or cannot be read; there is no room; a directory is none, or may not be written to.
    for (words, status) in [(&["v", "cut", "w"][..], 2), (&["v", "w", "nowhere"], 66), (&["cut"], 2)] {
        let words = [&["classify", "--dot", "x"], words].concat();
        assert_eq!(run(&mut place.desk(&words)).status, Some(status), "{words:?}");
    }
    let said = run(&mut place.shell("ulimit -f 0; exec \"$@\"", &["classify", "-q", "v", "w", "--dot", "x"]));
    assert_no_output(&said, "classify: x: cannot be written (file too large)");
    place.put_directory("closed");
    set_mode(&place.path("closed"), 0o555);
    for (output, why) in [
        ("nowhere/x", "there is no such directory"),
        ("closed", "is a directory, not a file"),
        ("closed/x", "its directory may not be written to (permission denied)"),
    ] {
        let said = run(&mut place.desk(["classify", "-q", "v", "--dot", output]));
        assert_no_output(&said, &format!("classify: {output}: {why}"));
    }
    assert_eq!(place.get("x"), old);
    assert_eq!(place.names(), ["closed", "cut", "v", "w", "x"]);
    assert_eq!(
        run(&mut place.desk(["classify", "-q", "v", "w", "--dot", "x"])).status,
        Some(0)
    );
    let drawing = String::from_utf8(place.get("x")).unwrap();
    assert!(drawing.starts_with("// ") && drawing.ends_with("  }\n}\n"), "{drawing}");
    // A node for each name and owl:Thing, and an arrow from each name.
    let count = |part| drawing.matches(part).count();
    assert_eq!([count(" [label="), count(" -> "), count("subgraph")], [19, 17, 2]);
}

#[test]
fn many_vocabularies_take_little_memory_where_no_drawing_is_asked_for() {
    let place = Place::new("many");
    let words = "x".repeat(190);
    let lines: Vec<String> = (1..4).map(|label| format!("c{label} -- {words}\n")).collect();
    place.put("v", format!("vocabulary roles 0\n{}", lines.concat()));
    // A drawing of all has some 16 MB.
    let words = [&["classify", "-q"][..], &["v"; 20_000]].concat();
    let said = run(&mut place.shell("ulimit -d 8192; exec \"$@\"", &words));
    assert_eq!((said.status, said.err.as_str()), (Some(0), ""));
}

#[test]
fn a_drawing_is_made_though_the_reader_of_the_answers_has_gone_away() {
    let place = Place::new("gone-drawing");
    let names: Vec<String> = (0..50).map(|number| format!("v{number}")).collect();
    for name in &names {
        place.put(name, vocabulary(1, 5).1);
    }
    let (reader, writer) = std::io::pipe().unwrap();
    drop(reader);
    let mut command = place.desk(["classify", "--dot", "x"]);
    let output = command.args(&names).stdin(Stdio::null()).stdout(writer).output();
    let said = Said::from(output.unwrap());
    assert_eq!((said.status, said.err.as_str()), (Some(0), ""));
    let drawing = String::from_utf8(place.get("x")).unwrap();
    assert_eq!(drawing.matches("subgraph").count(), 50);
}

#[test]
fn mode_and_owner_stay() {
    let (place, whole) = texts_in(Place::of_caller("mode"));
    for wanted in [0o640, 0o755, 0o600, 0o666, 0o4755] {
        let path = place.put("x", "old");
        set_mode(&path, wanted);
        if is_root() {
            chown(&path, Some(1234), Some(5678)).unwrap();
            set_mode(&path, wanted);
        }
        let before = fs::metadata(&path).unwrap();
        let said = run(&mut place.shell("umask 077; exec \"$@\"", &["assemble", "a", "-o", "x"]));
        assert_eq!((said.status, place.get("x")), (Some(0), whole[0].clone()), "{said:?}");
        let after = fs::metadata(&path).unwrap();
        assert_eq!(mode(&path), wanted & 0o777);
        assert_eq!((after.uid(), after.gid()), (before.uid(), before.gid()));
        fs::remove_file(path).unwrap();
    }
    for (mask, wanted) in [("022", 0o644), ("027", 0o640), ("077", 0o600)] {
        let name = format!("new-{mask}");
        let said = run(&mut place.shell(&format!("umask {mask}; exec \"$@\""), &["assemble", "a", "-o", &name]));
        assert_eq!((said.status, mode(&place.path(&name))), (Some(0), wanted));
    }
}

#[test]
fn a_symbolic_link_stays_and_its_target_is_written() {
    let (place, whole) = two_texts("link");
    for directory in ["one", "two"] {
        place.put_directory(directory);
    }
    place.put("two/x", "old");
    // A chain, which leaves its directory; a link whose target is to be made; one by an absolute path.
    for (target, link) in [
        ("../two/x", "one/second"),
        ("one/second", "first"),
        ("two/y", "dangling"),
    ] {
        symlink(target, place.path(link)).unwrap();
    }
    symlink(place.path("two/z"), place.path("absolute")).unwrap();
    for (link, target) in [("first", "two/x"), ("dangling", "two/y"), ("absolute", "two/z")] {
        let said = run(&mut place.desk(["assemble", "a", "-o", link]));
        assert_eq!(
            (said.status, place.get(target)),
            (Some(0), whole[0].clone()),
            "{said:?}"
        );
        assert!(fs::symlink_metadata(place.path(link)).unwrap().is_symlink());
        assert!(fs::symlink_metadata(place.path(target)).unwrap().is_file());
    }
    assert!(fs::symlink_metadata(place.path("one/second")).unwrap().is_symlink());
    for (target, link, why) in [
        ("nowhere/x", "lost", "there is no such directory"),
        ("nowhere/", "slash", "names a directory, not a file"),
        ("two", "directory", "is a directory, not a file"),
        ("loop", "loop", "cannot be written (too many levels of symbolic links)"),
    ] {
        symlink(target, place.path(link)).unwrap();
        let said = run(&mut place.desk(["assemble", "a", "-o", link]));
        assert_no_output(&said, &format!("assemble: {link}: {why}"));
    }
    let names = ["one", "two"].map(|directory| support::names(&place.path(directory)));
    assert_eq!(names, [vec!["second"], vec!["x", "y", "z"]]);
    assert!(!place.has_temporary());
}

#[test]
fn a_name_of_a_file_is_needed() {
    let (place, whole) = two_texts("name");
    place.put_directory("inner");
    place.put("x", "old");
    let longest = "n".repeat(255);
    for (output, why) in [
        ("", "'': is no name of a file"),
        ("inner", "inner: is a directory, not a file"),
        ("inner/", "inner/: is a directory, not a file"),
        (".", ".: is a directory, not a file"),
        ("new/", "new/: names a directory, not a file"),
        ("x/", "x/: names a directory, not a file"),
        ("x/y", "x/y: there is no such directory"),
        ("new/.", "new/.: there is no such directory"),
        ("new/y", "new/y: there is no such directory"),
        (
            &"n".repeat(256),
            &format!("{}: cannot be written (file name too long)", "n".repeat(256)),
        ),
    ] {
        let said = run(&mut place.desk(["assemble", "a", "-o", output]));
        assert_no_output(&said, &format!("assemble: {why}"));
        assert_eq!(place.names(), ["a", "b", "inner", "x"]);
    }
    assert_eq!(place.get("x"), b"old");
    for _ in 0..2 {
        assert_eq!(run(&mut place.desk(["assemble", "a", "-o", &longest])).status, Some(0));
        assert_eq!(place.get(&longest), whole[0]);
    }
    assert_eq!(place.names(), ["a", "b", "inner", &longest, "x"]);
}

#[test]
fn what_may_not_be_written_stays() {
    let (place, whole) = two_texts("permissions");
    for (directory, mode, inner) in [
        ("locked", 0o555, 0o666),
        ("open", 0o777, 0o444),
        ("sticky", 0o1777, 0o666),
    ] {
        let path = place.put_directory(directory);
        set_mode(&place.put(&format!("{directory}/x"), "old"), inner);
        set_mode(&path, mode);
    }
    let mut cases = vec![
        ("locked/x", "its directory may not be written to (permission denied)"),
        ("locked/new", "its directory may not be written to (permission denied)"),
        ("open/x", "may not be written (permission denied)"),
    ];
    if is_root() {
        // Another user's file, which may be written, but not replaced.
        for path in ["sticky", "sticky/x"] {
            chown(place.path(path), Some(0), Some(0)).unwrap();
        }
        cases.push(("sticky/x", "may not be replaced (permission denied)"));
    }
    for (output, why) in cases {
        let said = run(&mut place.desk(["assemble", "a", "-o", output]));
        assert_no_output(&said, &format!("assemble: {output}: {why}"));
    }
    for directory in ["locked", "open", "sticky"] {
        assert_eq!(place.get(&format!("{directory}/x")), b"old");
        assert_eq!(support::names(&place.path(directory)), ["x"]);
    }
    // An owner who cannot be kept; the mode is.
    let path = place.path("open/x");
    if is_root() {
        chown(&path, Some(0), Some(0)).unwrap();
    }
    set_mode(&path, 0o646);
    assert_eq!(run(&mut place.desk(["assemble", "a", "-o", "open/x"])).status, Some(0));
    assert_eq!((place.get("open/x"), mode(&path)), (whole[0].clone(), 0o646));
    set_mode(&place.path("locked"), 0o755);
}

#[test]
fn a_directory_may_vanish() {
    let (place, _) = two_texts("vanish");
    let text = place.get("a");
    for (output, why) in [
        ("inner/x", "there is no such directory"),
        ("x", "there is no such directory"),
    ] {
        place.put_directory("inner");
        let mut command = place.desk(["assemble", "-", "-o", output]);
        if output == "x" {
            command.current_dir(place.path("inner"));
        }
        let mut child = start(&mut command);
        fs::remove_dir(place.path("inner")).unwrap();
        child.stdin.take().unwrap().write_all(&text).unwrap();
        let said = child.wait_with_output().unwrap().into();
        assert_no_output(&said, &format!("assemble: {output}: {why}"));
        assert_eq!(place.names(), ["a", "b"]);
    }
}

#[test]
fn pipes_and_devices_are_written_to() {
    let (place, whole) = two_texts("place");
    let pipe = place.path("pipe");
    assert!(place.command("mkfifo").arg(&pipe).status().unwrap().success());
    symlink("pipe", place.path("link")).unwrap();
    for output in ["pipe", "link"] {
        // Waits for a writer, but not for ever.
        let reader = start(Command::new("timeout").args(["10", "cat"]).arg(&pipe));
        assert_eq!(run(&mut place.desk(["assemble", "a", "-o", output])).status, Some(0));
        assert!(fs::symlink_metadata(&pipe).unwrap().file_type().is_fifo());
        assert_eq!(reader.wait_with_output().unwrap().stdout, whole[0]);
    }
    let said = run(&mut place.desk(["assemble", "a", "-o", "/dev/null"]));
    assert_eq!(said.out, b"/dev/null: a vocabulary of 501 records\n");
    assert!(fs::symlink_metadata("/dev/null").unwrap().file_type().is_char_device());
    assert!(
        !place.has_temporary()
            && !support::names(Path::new("/dev"))
                .iter()
                .any(|name| name.starts_with(".desk-"))
    );
}

#[test]
fn standard_output_is_written_to_by_its_name() {
    let (place, whole) = two_texts("stdout");
    for output in ["-", "/dev/stdout", "/dev/fd/1", "/proc/self/fd/1"] {
        let said = run(&mut place.desk(["assemble", "a", "-o", output]));
        assert_eq!(
            (said.status, said.out, said.err.as_str()),
            (Some(0), whole[0].clone(), "")
        );
        for (line, before) in [("exec \"$@\" > x", ""), ("exec \"$@\" >> x", "old")] {
            place.put("x", "old");
            assert_eq!(
                run(&mut place.shell(line, &["assemble", "a", "-o", output])).status,
                Some(0)
            );
            assert_eq!(place.get("x"), [before.as_bytes(), &whole[0]].concat());
        }
    }
    // The survivors, and the answer behind them.
    place.put("v", vocabulary(1, 5).1);
    let answer = run(&mut place.desk(["compare", "v", "1", "2", "--survivors", "survivors"])).out;
    let line = "exec \"$@\" > x";
    run(&mut place.shell(line, &["compare", "v", "1", "2", "--survivors", "/dev/stdout"]));
    assert_eq!(place.get("x"), [place.get("survivors"), answer].concat());
    // Of a file behind another descriptor nothing is cut off; a descriptor may be none.
    place.put("x", "old");
    let said = run(&mut place.shell("exec \"$@\" 3>> x", &["assemble", "a", "-o", "/dev/fd/3"]));
    assert_eq!(
        (said.status, place.get("x")),
        (Some(0), [b"old", whole[0].as_slice()].concat())
    );
    let said = run(&mut place.desk(["assemble", "a", "-o", "/dev/fd/99"]));
    assert_no_output(&said, "assemble: /dev/fd/99: is not open");
}

/// Runs `assemble` over an old file with a signal in between, and answers how it ended. The file is the old one or the new,
/// whole; `spot` waits for the moment.
fn interrupted(place: &Place, whole: &[Vec<u8>; 2], signal: i32, spot: impl Fn(&Place)) -> (Option<i32>, bool) {
    place.put("x", &whole[1]);
    let mut child = start(&mut place.desk(["assemble", "a", "-o", "x"]));
    spot(place);
    send(&child, signal);
    let status = end(&mut child);
    let found = place.get("x");
    assert!(whole.contains(&found), "{} bytes, signal {signal}", found.len());
    let is_new = found == whole[0];
    match status.code() {
        Some(0) => assert!(is_new),
        Some(130) => assert!(!is_new && signal != KILL),
        _ => assert!(ended_by(status, signal), "{status:?}"),
    }
    if signal != KILL {
        assert_eq!(place.names(), ["a", "b", "x"]);
    }
    (status.code(), is_new)
}

#[test]
fn a_signal_at_any_moment_leaves_a_whole_file() {
    let (place, whole) = two_texts("moments");
    for round in 0..160_u64 {
        for signal in [HANGUP, INTERRUPT, TERMINATE, KILL] {
            let wait = Duration::from_micros(round * 7919 % 4000);
            interrupted(&place, &whole, signal, |_| std::thread::sleep(wait));
        }
        for name in place.names().iter().filter(|name| name.starts_with(".desk-")) {
            fs::remove_file(place.path(name)).unwrap();
        }
    }
}

/// Waits until a file is being made, or has taken the place of `x`, which is the old one at first.
fn spot_temporary(place: &Place, old: &[u8]) {
    let start = Instant::now();
    while !place.has_temporary() && place.get("x") == old {
        assert!(start.elapsed() < Duration::from_secs(10));
    }
}

#[test]
fn a_signal_while_a_file_is_made_removes_it() {
    let (place, whole) = two_texts("made");
    for signal in [HANGUP, INTERRUPT, TERMINATE] {
        let mut rounds = 0;
        let spot = |place: &Place| spot_temporary(place, &whole[1]);
        while interrupted(&place, &whole, signal, spot) != (Some(130), false) {
            rounds += 1;
            assert!(rounds < 300, "signal {signal} never came while the file was made");
        }
    }
}

#[test]
fn a_signal_that_is_ignored_stays_so() {
    let (place, whole) = two_texts("ignored");
    for _ in 0..20 {
        place.put("x", &whole[1]);
        let mut child = start(&mut place.shell("trap '' HUP; exec \"$@\"", &["assemble", "a", "-o", "x"]));
        spot_temporary(&place, &whole[1]);
        send(&child, HANGUP);
        assert_eq!((end(&mut child).code(), place.get("x")), (Some(0), whole[0].clone()));
    }
}

#[test]
fn a_run_that_waits_ends_at_once() {
    let (place, _) = two_texts("waits");
    assert!(place.command("mkfifo").arg("pipe").status().unwrap().success());
    for signal in [HANGUP, INTERRUPT, TERMINATE] {
        for words in [
            &["assemble", "-", "-o", "x"][..],
            &["check", "-"],
            &["assemble", "a", "-o", "pipe"],
        ] {
            let mut child = start(&mut place.desk(words));
            std::thread::sleep(Duration::from_millis(30));
            send(&child, signal);
            assert!(ended_by(end(&mut child), signal), "{words:?}");
        }
    }
    assert_eq!(place.names(), ["a", "b", "pipe"]);
}

#[test]
fn a_signal_after_the_file_is_made_ends_the_run() {
    let (place, whole) = two_texts("after");
    let (reader, writer) = std::io::pipe().unwrap();
    let mut filler = writer.try_clone().unwrap();
    // Nobody reads, so that the answer has to wait.
    let filling = std::thread::spawn(move || filler.write_all(&[0; 1 << 21]));
    std::thread::sleep(Duration::from_millis(30));
    let mut child = place.desk(["assemble", "a", "-o", "x"]).stdout(writer).spawn().unwrap();
    while !place.path("x").exists() {
        assert!(child.try_wait().unwrap().is_none());
    }
    std::thread::sleep(Duration::from_millis(30));
    send(&child, INTERRUPT);
    assert!(ended_by(end(&mut child), INTERRUPT));
    assert_eq!((place.get("x"), place.names().len()), (whole[0].clone(), 3));
    drop(reader);
    assert!(filling.join().unwrap().is_err());
}

#[test]
fn a_closed_standard_output_is_told() {
    let (place, whole) = two_texts("closed");
    place.put("v", &vocabulary(1, 5).1);
    place.put("table", "v 1 2 different\n");
    let closed = "the answer cannot be written (standard output is closed)";
    for (name, words) in [
        ("desk check", &["check", "v"][..]),
        ("desk show", &["show", "v"]),
        ("desk record", &["record", "v", "1"]),
        ("desk compare", &["compare", "v", "1", "2", "--json"]),
        ("desk classify", &["classify", "v"]),
        ("desk classify", &["classify", "v", "v", "--dot", "drawing"]),
        ("desk classify", &["classify", "nowhere", "--json"]),
        ("desk recheck", &["recheck", "table"]),
        ("desk recheck", &["recheck", "table", "--json"]),
        ("desk assemble", &["assemble", "a", "-o", "x"]),
        ("desk assemble", &["assemble", "a", "-o", "-"]),
        ("desk check", &["check", "nowhere", "--json"]),
        ("desk check", &["check", "--help"]),
        ("desk", &["--help"]),
        ("desk", &["--version"]),
    ] {
        let said = run(&mut place.shell("exec \"$@\" >&-", words));
        assert_eq!(
            (said.status, said.err),
            (Some(74), format!("{name}: {closed}\n")),
            "{words:?}"
        );
        assert_eq!(run(&mut place.shell("exec \"$@\" >&- 2>&-", words)).status, Some(74));
    }
    assert_eq!(place.get("x"), whole[0]);
    assert!(!place.path("drawing").exists());
    let said = run(&mut place.shell(
        "exec \"$@\" >&-",
        &["compare", "v", "1", "2", "--survivors", "/dev/stdout"],
    ));
    assert_no_output(
        &said,
        "compare: /dev/stdout: cannot be written (standard output is closed)",
    );
    let said = run(&mut place.shell("exec \"$@\" >&-", &["check", "v", "--quiet"]));
    assert_eq!((said.status, said.err.as_str()), (Some(0), ""));
    let said = run(&mut place.shell("exec \"$@\" 1< /dev/null", &["check", "v"]));
    assert_eq!(
        said.err,
        "desk check: the answer cannot be written (bad file descriptor)\n"
    );
    assert_eq!(said.status, Some(74));
}

#[test]
fn a_closed_standard_input_is_told() {
    let place = Place::new("input");
    place.put("v", &vocabulary(1, 5).1);
    for (command, input, words) in [
        ("check", "standard input", &["check", "-"][..]),
        ("show", "standard input", &["show", "-"]),
        ("compare", "standard input", &["compare", "-", "1", "2"]),
        ("compare", "standard input", &["compare", "v", "1", "2", "--words", "-"]),
        ("classify", "standard input", &["classify", "-"]),
        ("classify", "standard input", &["classify", "v", "--words", "-"]),
        ("assemble", "standard input", &["assemble", "-", "-o", "x"]),
        ("recheck", "standard input", &["recheck", "-"]),
        ("check", "/dev/stdin", &["check", "/dev/stdin"]),
    ] {
        for (line, why) in [("<&-", "it is closed"), ("0> /dev/null", "bad file descriptor")] {
            if line != "<&-" && input != "standard input" {
                continue;
            }
            let said = run(&mut place.shell(&format!("exec \"$@\" {line}"), words));
            assert_eq!(said.err, format!("desk {command}: {input}: cannot be read ({why})\n"));
            assert_eq!((said.status, said.out.as_slice()), (Some(66), &b""[..]));
        }
    }
    let said = run(&mut place.shell("exec \"$@\" <&-", &["compare", "-", "1", "2", "--json"]));
    let message = "standard input: cannot be read (it is closed)";
    let wanted = format!("{{\"command\":\"compare\",\"status\":66,\"verdict\":\"error\",\"message\":\"{message}\"}}\n");
    assert_eq!((said.status, String::from_utf8(said.out).unwrap()), (Some(66), wanted));
    // Where it is not asked for, it does not matter.
    assert_eq!(
        run(&mut place.shell("exec \"$@\" <&-", &["check", "v"])).status,
        Some(0)
    );
    let said = run_with(&mut place.desk(["check", "-"]), &vocabulary(1, 5).1);
    assert_eq!(said.status, Some(0));
}

#[test]
fn a_reader_that_has_gone_away_is_no_error() {
    let place = Place::new("gone");
    place.put("v", &vocabulary(1, 500).1);
    place.put("w", &vocabulary(1, 5).1);
    for (words, status) in [
        (&["show", "v"][..], 0),
        (&["check", "v"], 0),
        (&["check", "v", "--json"], 0),
        (&["classify", "w", "w", "w"], 0),
        (&["classify", "v", "w", "--json"], 2),
        (&["compare", "v", "1", "9999"], 2),
        (&["--help"], 0),
    ] {
        let (reader, writer) = std::io::pipe().unwrap();
        drop(reader);
        let mut command = place.desk(words);
        let said = Said::from(command.stdin(Stdio::null()).stdout(writer).output().unwrap());
        assert_eq!((said.status, said.err.as_str()), (Some(status), ""), "{words:?}");
    }
}
