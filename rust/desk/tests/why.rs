//! `desk why` where it takes long: it can be interrupted, and tells then what it has found.

#![allow(clippy::unwrap_used, clippy::panic)]

#[path = "support/place.rs"]
#[allow(dead_code, unused_imports)]
mod support;

use std::time::Duration;
use support::{run, send, start, Place, Said, INTERRUPT, TERMINATE};

/// c0 lies within c1 by each of ten names between them, each twice: 40 sets, and 2 ^ 10 ways to leave all of them out.
fn many_ways() -> String {
    let names = (0..12).map(|label| format!("c{label}\n"));
    let between = (2..12).map(|label| format!("SubClassOf(c0 c{label})\nSubClassOf(c{label} c1)\n").repeat(2));
    let lines: String = names.chain(between).collect();
    format!("vocabulary roles 0\n{lines}")
}

/// How a search for all sets came out that was interrupted after a while. A signal before the search begins ends the run at
/// once; then it is tried again, and more time is given.
fn interrupted(place: &Place, options: &[&str], signal: i32) -> Said {
    for wait in [100, 400, 1_600, 6_400] {
        let words = ["why", "many.text", "1", "2", "--within", "--all", "64"];
        let child = start(&mut place.desk(words.iter().chain(options)));
        std::thread::sleep(Duration::from_millis(wait));
        send(&child, signal);
        let said = Said::from(child.wait_with_output().unwrap());
        if said.status.is_some() && !said.out.is_empty() {
            return said;
        }
    }
    panic!("no set is ever found");
}

#[test]
fn an_interrupted_search_tells_what_it_has_found() {
    let place = Place::of_caller("why-interrupted");
    place.put("many.text", many_ways());
    let said = interrupted(&place, &[], INTERRUPT);
    let text = String::from_utf8(said.out).unwrap();
    assert_eq!((said.status, said.err.as_str()), (Some(130), ""), "{text}");
    assert!(text.starts_with("many.text: A lies within B by "), "{text}");
    assert!(text.contains("these statements are enough, and none of them can be left out:\n"));
    assert!(
        text.ends_with("\ninterrupted; there may be other such sets\n"),
        "{text}"
    );
    let said = interrupted(&place, &["--json"], TERMINATE);
    let text = String::from_utf8(said.out).unwrap();
    assert_eq!((said.status, said.err.as_str()), (Some(130), ""), "{text}");
    let start = r#"{"command":"why","status":130,"file":"many.text","verdict":"interrupted","#;
    assert!(text.starts_with(start), "{text}");
    assert!(text.contains(r#""minimal":true,"complete":null,"asked":"#), "{text}");
}

#[test]
fn a_search_that_takes_too_long_is_given_up() {
    let place = Place::of_caller("why-given-up");
    place.put("many.text", many_ways());
    let said = run(&mut place.desk(["why", "many.text", "1", "2", "--within", "--all", "64"]));
    let text = String::from_utf8(said.out).unwrap();
    assert_eq!((said.status, said.err.as_str()), (Some(0), ""), "{text}");
    let last = "\nthere may be other such sets: the search for them takes too long\n";
    assert!(text.contains("\nset 20: ") && text.ends_with(last), "{text}");
    // A few are soon found, and that there are more.
    let said = run(&mut place.desk(["why", "many.text", "1", "2", "--within", "--all", "9"]));
    let text = String::from_utf8(said.out).unwrap();
    assert_eq!((said.status, said.err.as_str()), (Some(0), ""), "{text}");
    assert!(
        text.contains("\nset 9: ") && text.ends_with("\nthere are other such sets\n"),
        "{text}"
    );
}
