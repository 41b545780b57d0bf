//! `desk recheck --html` as people call it: that the page is whole, well formed and self-contained, the same for any number
//! of threads, and not there where not all of the table was judged.

#![allow(clippy::unwrap_used, clippy::indexing_slicing, clippy::panic)]

#[path = "support/html.rs"]
mod html;
#[path = "support/place.rs"]
#[allow(dead_code, unused_imports)]
mod place;

use html::Page;
use place::{end, mode, run, send, set_mode, start, Place, INTERRUPT};
use std::fs;
use std::os::unix::fs::symlink;
use std::process::Stdio;

/// Sample V of docs/FORMATS.md, section 10: term 4 lies within term 3.
const V: &str =
    "vocabulary roles 0\nc1\nc2\nc3\nObjectIntersectionOf(c1 c2)\nSubClassOf(ObjectIntersectionOf(c1 c2) c3)\n";
/// The same with a role, and words that would be markup.
const GOODS: &str = "vocabulary roles 1\nc1 -- goods <b onclick='x'>& \"more\"</b>\nc2 -- \u{5d0}\u{5d1}\n\
                     ObjectSomeValuesFrom(r0 c2) -- </td></table><script>alert(1)</script>\nowl:Nothing\nSubClassOf(c2 c1)\n";

/// A table with a line of each sort, and the numbers of its lines.
const TABLE: &str = "-- a table\nv.text 4 3 within\nv.text 4 3 equal\n\ngoods.text 3 1 within\ngoods.text 1 3 within\n\
                     goods.text 4 1 within\ngoods.text 9 1 within\nnone.text 1 2 equal\n<i>&amp; 1 2 equal\nv.text 1\u{1b}[31m 2 equal\n";
const LINES: [u64; 9] = [2, 3, 5, 6, 7, 8, 9, 10, 11];

/// A place with the files of the table.
fn files(name: &str) -> Place {
    let place = Place::new(name);
    place.put("v.text", V);
    place.put("goods.text", GOODS);
    place.put("t", TABLE);
    place
}

/// The page that a call makes, whose status is this.
fn page(place: &Place, words: &[&str], status: i32) -> String {
    let mut call = vec!["recheck", "t", "--html", "p.html"];
    call.extend(words);
    let said = run(place.desk(call).env("SOURCE_DATE_EPOCH", "1000000000"));
    assert_eq!(said.status, Some(status), "{}", said.err);
    assert!(!place.has_temporary());
    String::from_utf8(place.get("p.html")).unwrap()
}

#[test]
fn the_page_is_well_formed_and_has_each_line() {
    let place = files("page");
    let text = page(&place, &[], 66);
    let page = Page::read(&text);
    for line in LINES {
        assert!(page.ids.contains(&format!("line-{line}")), "{line}");
    }
    assert_eq!(text.matches("<tbody id=\"line-").count(), LINES.len());
    assert!(text.contains("<time>2001-09-09T01:46:40Z</time>"));
    let versions = format!(
        "desk {}, with the library judge {}",
        env!("CARGO_PKG_VERSION"),
        judge::VERSION
    );
    assert!(text.contains(&versions));
    for file in ["v.text", "goods.text", "t"] {
        let hash = base::sha256::sha256(&place.get(file));
        assert_eq!(text.matches(&hash).count(), 1, "{file}");
    }
    // What files say is text, and no markup; nor is it followed by what shows it.
    assert!(text.contains("&lt;/td&gt;&lt;/table&gt;&lt;script&gt;alert(1)&lt;/script&gt;"));
    assert!(text.contains("\\u{1b}[31m") && !text.contains('\u{1b}'));
    assert!(!text.contains("<b ") && !text.contains("<i>"));
    // Of the lines that do not hold, those by terms that differ have a drawing each.
    assert_eq!(text.matches("<svg ").count(), 3);
    assert_eq!(text.matches(">element 4</text>").count(), 2);
    for word in [
        "does not hold",
        "holds vacuously",
        "refused",
        "malformed",
        "not readable",
    ] {
        assert!(text.contains(&format!("<strong>{word}</strong>")), "{word}");
    }
}

#[test]
fn the_page_is_the_same_for_any_number_of_threads() {
    let place = files("page-threads");
    let lines: String = (0..3000)
        .map(|i| ["v.text 4 3 within\n", "goods.text 1 3 within\n", "v.text 4 1 equal\n"][i % 3])
        .collect();
    place.put("t", lines);
    let one = page(&place, &[], 1);
    let page_of_one = Page::read(&one);
    assert!(page_of_one.ids.contains("line-3000"));
    assert!(one.contains("</a> and 1,900 more.</p>"), "the links have an end");
    for jobs in ["-j2", "-j7"] {
        assert!(page(&place, &[jobs], 1) == one, "{jobs}");
    }
}

#[test]
fn a_file_that_changes_is_told_at_the_lines_judged_by_other_bytes() {
    let place = files("page-changed");
    // The vocabulary is left for 16 others, so that it is read again; the table waits for that at a pipe.
    let mut table = "v.text 4 3 within\n".to_string();
    for i in 0..20 {
        place.put(&format!("w{i}.text"), V);
        table.push_str(&format!("w{i}.text 4 3 within\n"));
    }
    let mut child = start(&mut place.desk(["recheck", "-", "--html", "p.html", "--strict"]));
    let mut input = child.stdin.take().unwrap();
    std::io::Write::write_all(&mut input, table.as_bytes()).unwrap();
    std::io::Write::write_all(&mut input, b"v.text 4 1 equal\n").unwrap();
    // The answer about that line shows that the lines before it are judged.
    let mut out = std::io::BufReader::new(child.stdout.take().unwrap());
    std::io::BufRead::read_line(&mut out, &mut String::new()).unwrap();
    for i in 0..20 {
        std::io::Write::write_all(&mut input, format!("w{i}.text 4 3 within\n").as_bytes()).unwrap();
    }
    std::io::Write::write_all(&mut input, b"w19.text 4 1 equal\n").unwrap();
    let mut line = String::new();
    while !line.contains("w19.text") {
        line.clear();
        assert!(std::io::BufRead::read_line(&mut out, &mut line).unwrap() > 0);
    }
    let other = format!("{V}c4\n");
    place.put("v.text", &other);
    std::io::Write::write_all(&mut input, b"v.text 4 3 within\n").unwrap();
    drop(input);
    std::io::Read::read_to_string(&mut out, &mut String::new()).unwrap();
    assert_eq!(end(&mut child).code(), Some(1));
    let text = String::from_utf8(place.get("p.html")).unwrap();
    Page::read(&text);
    assert_eq!(text.matches("It has changed during the run.").count(), 1);
    let row = text.split("<tbody id=").last().unwrap();
    assert!(row.contains(&base::sha256::sha256(other.as_bytes())), "{row}");
    assert_eq!(text.matches(&base::sha256::sha256(other.as_bytes())).count(), 1);
}

#[test]
fn a_page_is_not_written_where_not_all_was_judged() {
    let place = files("page-interrupted");
    place.put("p.html", "old");
    let mut child = start(&mut place.desk(["recheck", "-", "--html", "p.html"]));
    let mut input = child.stdin.take().unwrap();
    std::io::Write::write_all(&mut input, b"v.text 4 3 equal\n").unwrap();
    let mut out = std::io::BufReader::new(child.stdout.take().unwrap());
    std::io::BufRead::read_line(&mut out, &mut String::new()).unwrap();
    send(&child, INTERRUPT);
    assert_eq!(end(&mut child).code(), Some(130));
    let mut said = String::new();
    std::io::Read::read_to_string(&mut out, &mut said).unwrap();
    assert!(said.ends_with("0 not readable; p.html is not written\n"), "{said}");
    assert_eq!(place.get("p.html"), b"old");
    assert!(!place.has_temporary());
}

#[test]
fn an_input_is_never_written_over() {
    let place = files("page-input");
    place.put("t", "v.text 4 3 within\nw.text 4 3 within\n");
    place.put("w.text", V);
    symlink("v.text", place.path("link")).unwrap();
    fs::hard_link(place.path("w.text"), place.path("hard")).unwrap();
    for name in ["t", "v.text", "w.text", "link", "hard"] {
        let said = run(&mut place.desk(["recheck", "t", "--html", name]));
        assert_eq!(said.status, Some(73), "{name}");
        let wanted = format!("desk recheck: {name}: is an input, and stays as it is\n");
        assert_eq!(said.err, wanted);
    }
    place.put("x.text", GOODS);
    let said = run(&mut place.desk(["recheck", "t", "--html", "x.text", "--words", "x.text"]));
    assert_eq!(said.status, Some(73));
    assert_eq!(place.get("x.text"), GOODS.as_bytes());
    assert_eq!(place.get("v.text"), V.as_bytes());
    assert_eq!(place.get("w.text"), V.as_bytes());
    assert!(!place.has_temporary());
}

#[test]
fn a_page_goes_where_its_name_leads() {
    let place = files("page-places");
    place.put("t", "v.text 4 3 within\n");
    // A pipe has the page and nothing else; a link stays, and its target is written; a mode is kept.
    let said = run(place
        .desk(["recheck", "t", "-q", "--html", "/dev/stdout"])
        .env("SOURCE_DATE_EPOCH", "0"));
    assert_eq!(said.status, Some(0), "{}", said.err);
    Page::read(&String::from_utf8(said.out.clone()).unwrap());
    place.put("target", "old");
    set_mode(&place.path("target"), 0o640);
    symlink("target", place.path("link")).unwrap();
    let said_too = run(place
        .desk(["recheck", "t", "-q", "--html", "link"])
        .env("SOURCE_DATE_EPOCH", "0"));
    assert_eq!(said_too.status, Some(0), "{}", said_too.err);
    assert!(place.path("link").is_symlink());
    assert_eq!(place.get("target"), said.out);
    assert_eq!(mode(&place.path("target")), 0o640);
    // What cannot be made is told before the table is judged.
    for (name, why) in [
        ("no/p.html", "there is no such directory"),
        (".", "is a directory, not a file"),
    ] {
        let said = run(&mut place.desk(["recheck", "t", "--html", name]));
        assert_eq!((said.status, said.out.as_slice()), (Some(73), &b""[..]));
        assert_eq!(said.err, format!("desk recheck: {name}: {why}\n"));
    }
    // One that ends because nobody reads its answers has judged all of the table for its page.
    place.put("t", "v.text 4 3 equal\n".repeat(20_000));
    let mut gone = place.shell("\"$@\" | head -n 1 >&2", &["recheck", "t", "--html", "gone.html"]);
    run(gone.stdout(Stdio::null()));
    assert_eq!(
        String::from_utf8(place.get("gone.html"))
            .unwrap()
            .matches("<tbody id=")
            .count(),
        20_000
    );
}
