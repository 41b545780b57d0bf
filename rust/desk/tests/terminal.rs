//! On a real terminal, which `script` makes: colour, unless it is dumb or NO_COLOR is set or --color says otherwise, a
//! progress bar, and never a character from a file that the terminal would follow.

#![allow(clippy::unwrap_used)]

mod support;

use std::fs;
use support::{root, Place};

/// What a terminal gets of a command; nothing where `script` cannot make a terminal here.
fn on_terminal(place: &Place, words: &str) -> Option<String> {
    let quoted = words.replace('\'', "'\\''");
    let (_, status) = place.said("script -qec true /dev/null");
    if status != 0 {
        eprintln!("terminals are not tested, since `script` cannot make one here");
        return None;
    }
    Some(place.said(&format!("script -qec '{quoted}' /dev/null")).0)
}

/// A place with a vocabulary and a long table.
fn place(name: &str) -> Place {
    let place = Place::new(name);
    fs::copy(root().join("examples/v.vocabulary"), place.file("v.vocabulary")).unwrap();
    fs::write(place.file("long.table"), "v.vocabulary 4 3 different\n".repeat(300_000)).unwrap();
    place
}

#[test]
fn colour_is_used_on_terminals_that_know_it() {
    let place = place("colour");
    for (colour, words) in [
        (true, "TERM=xterm desk check v.vocabulary"),
        (false, "TERM=dumb desk check v.vocabulary"),
        (false, "TERM=xterm NO_COLOR=1 desk check v.vocabulary"),
        (false, "TERM=xterm desk check v.vocabulary --json"),
        (false, "TERM=xterm desk check v.vocabulary --color=never"),
        (true, "TERM=dumb desk check v.vocabulary --color=always"),
        (true, "TERM=xterm NO_COLOR=1 desk check v.vocabulary --color"),
        (true, "TERM=xterm desk check v.vocabulary --color=auto"),
        (false, "TERM=xterm desk check v.vocabulary --quiet"),
    ] {
        let Some(said) = on_terminal(&place, words) else { return };
        assert_eq!(said.contains("\x1b["), colour, "{words}: {said}");
    }
    let (piped, _) = place.said("TERM=xterm desk check v.vocabulary --color=auto | cat");
    assert!(!piped.contains('\x1b'), "{piped}");
}

#[test]
fn a_progress_bar_is_drawn_and_cleared() {
    let place = place("bar");
    let Some(said) = on_terminal(&place, "TERM=xterm desk recheck long.table") else {
        return;
    };
    assert!(
        said.contains("\r[") && said.contains("#") && said.contains(" lines"),
        "{said}"
    );
    assert!(said.contains("\r\x1b[2K"), "{said}");
    assert!(said.contains("300,000 of 300,000 lines hold"), "{said}");
    for words in [
        "TERM=dumb desk recheck long.table",
        "TERM=xterm desk recheck -q long.table",
    ] {
        let said = on_terminal(&place, words).unwrap();
        assert!(!said.contains("\r[") && !said.contains('\x1b'), "{words}: {said}");
    }
}

/// A character that writes from right to left, and one that clears the screen.
const HOSTILE: &str = "\u{202e}evil\u{1b}[2J";

#[test]
fn what_a_terminal_would_follow_never_reaches_it_from_files() {
    let place = place("hostile");
    let text = format!("vocabulary roles 0 -- {HOSTILE}\nc1 -- {HOSTILE}\nc2 -- {HOSTILE}\nc3\nObjectIntersectionOf(c1 c2)\nSubClassOf(#4 c3)\n");
    fs::write(place.file("hostile.text"), &text).unwrap();
    fs::write(
        place.file("faulty.text"),
        format!("vocabulary roles 0\nc1\n{HOSTILE}(c1)\nraw {HOSTILE}\n"),
    )
    .unwrap();
    fs::write(place.file("first.text"), format!("vocabulary{HOSTILE}\n")).unwrap();
    fs::write(
        place.file("hostile.table"),
        format!(
            "{HOSTILE} 4 3 equal\nv.vocabulary 4 3 {HOSTILE}\nv.vocabulary {HOSTILE} 3 equal\nhostile.text 4 3 equal\n"
        ),
    )
    .unwrap();
    let named = format!("{HOSTILE}.vocabulary");
    fs::copy(place.file("v.vocabulary"), place.file(&named)).unwrap();
    for words in [
        "desk compare hostile.text 4 3".to_string(),
        "desk compare v.vocabulary 4 3 --words hostile.text".to_string(),
        "desk compare hostile.text 4 3 --json".to_string(),
        "desk within hostile.text 3 4".to_string(),
        "desk check faulty.text".to_string(),
        "desk check first.text --json".to_string(),
        "desk assemble faulty.text -o x".to_string(),
        "desk assemble faulty.text -o x --json".to_string(),
        "desk recheck hostile.table --explain".to_string(),
        "desk recheck hostile.table --json".to_string(),
        format!("desk check '{named}'"),
        format!("desk check '{named}' --json"),
        format!("desk check '{HOSTILE}'"),
        format!("desk '{HOSTILE}'"),
        format!("desk check --{HOSTILE}"),
        format!("desk assemble hostile.text -o '{HOSTILE}'"),
        format!("desk record v.vocabulary '{HOSTILE}'"),
        "desk show hostile.text".to_string(),
        "desk columns hostile.text".to_string(),
    ] {
        let (said, _) = place.said(&words);
        assert!(
            !said.contains('\x1b') && !said.contains('\u{202e}'),
            "{words}: {said:?}"
        );
    }
    let (said, _) = place.said("desk compare hostile.text 4 3");
    assert!(said.contains("\\u{202e}evil\\u{1b}[2J"), "{said}");
}
