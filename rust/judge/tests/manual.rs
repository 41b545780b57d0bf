//! judge(3), in man/judge.3, says of the library what include/judge.h and the wrapper say, and all have one version.

#![allow(clippy::unwrap_used, clippy::indexing_slicing)]

use judge::Rule;
use std::collections::BTreeSet;

const HEADER: &str = include_str!("../../../include/judge.h");
const PAGE: &str = include_str!("../../../man/judge.3");
const COMMAND_PAGE: &str = include_str!("../../../man/desk.1");

/// What stands behind a word at the beginning of a line, up to its end.
fn after<'a>(text: &'a str, word: &str) -> &'a str {
    let line = text.lines().find_map(|line| line.strip_prefix(word));
    line.unwrap().trim()
}

#[test]
fn all_have_one_version() {
    let [major, minor, patch] =
        ["MAJOR", "MINOR", "PATCH"].map(|part| after(HEADER, &format!("#define JUDGE_VERSION_{part} ")));
    assert_eq!(format!("{major}.{minor}.{patch}"), judge::VERSION);
    assert_eq!(
        after(HEADER, "#define JUDGE_VERSION "),
        format!("\"{}\"", judge::VERSION)
    );
    for page in [PAGE, COMMAND_PAGE] {
        assert_eq!(after(page, ".Os "), format!("\"Buyangsi {}\"", judge::VERSION));
    }
}

/// A prototype without the blanks that do not matter.
fn plain(prototype: &str) -> String {
    let words: Vec<&str> = prototype.split_whitespace().collect();
    words.join(" ").replace("* ", "*").replace("( ", "(")
}

/// The prototypes of the header: of the calls, and of the functions that take answers apart.
fn declared() -> BTreeSet<String> {
    let mut found = BTreeSet::new();
    for (beginning, end) in [("\nuint64_t judge_", ';'), ("\nstatic inline ", '{')] {
        for (at, _) in HEADER.match_indices(beginning) {
            let prototype = HEADER[at..].split(end).next().unwrap();
            found.insert(plain(&prototype.replace("static inline", "")));
        }
    }
    found
}

/// What stands in quotation marks.
fn quoted(line: &str) -> Vec<&str> {
    line.split('"').skip(1).step_by(2).collect()
}

/// The prototype of a line `.It Ft TYPE Fn NAME "PARAMETER" ..`.
fn listed(line: &str) -> String {
    let (before, after) = line.split_once(" Fn ").unwrap();
    let result = before.trim_end_matches(" Ns").replace('"', "");
    let name = after.split(' ').next().unwrap();
    plain(&format!("{result} {name}({})", quoted(after).join(", ")))
}

/// The prototypes of the page.
fn described() -> BTreeSet<String> {
    let mut found = BTreeSet::new();
    let (mut result, mut name, mut parameters) = ("", "", Vec::new());
    for line in PAGE.lines() {
        if let Some(words) = line.strip_prefix(".It Ft ") {
            found.insert(listed(words));
        } else if let Some(words) = line.strip_prefix(".Ft ") {
            result = words;
        } else if let Some(words) = line.strip_prefix(".Fo ") {
            (name, parameters) = (words, Vec::new());
        } else if line.starts_with(".Fa \"") {
            parameters.extend(quoted(line));
        } else if line == ".Fc" {
            found.insert(plain(&format!("{result} {name}({})", parameters.join(", "))));
        }
    }
    found
}

#[test]
fn the_page_has_the_prototypes_of_the_header() {
    assert!(declared().len() >= 26, "{} prototypes", declared().len());
    assert_eq!(described(), declared());
}

#[test]
fn the_page_has_every_refusal_in_its_words() {
    let table = PAGE.split(".Sh RETURN VALUES").nth(1).unwrap();
    let mut lines = table.lines();
    let mut rules = 0;
    while let Some(line) = lines.next() {
        let Some(number) = line.strip_prefix(".It ") else {
            continue;
        };
        rules += 1;
        assert_eq!(number, rules.to_string());
        // a long sentence takes several lines
        let words = Rule::of(rules).words();
        let mut sentence = lines.next().unwrap().to_string();
        while sentence.len() < words.len() {
            sentence = format!("{sentence} {}", lines.next().unwrap());
        }
        assert_eq!(sentence, words);
    }
    assert!(matches!(Rule::of(rules + 1), Rule::Unlisted(_)), "{rules} rules");
}

/// `.Dv JUDGE_ATOMS`, and on the next line its value in brackets.
#[test]
fn the_page_has_the_limits_of_the_header() {
    let mut limits = 0;
    for (line, next) in PAGE.lines().zip(PAGE.lines().skip(1)) {
        let (Some(name), Some(value)) = (line.strip_prefix(".Dv "), next.strip_prefix('(')) else {
            continue;
        };
        let value = value.split(')').next().unwrap().replace(',', "");
        let defined = HEADER.split(&format!("{name} = ")).nth(1).unwrap();
        let defined: String = defined.chars().take_while(char::is_ascii_digit).collect();
        assert_eq!(value, defined, "{name}");
        limits += 1;
    }
    assert!(limits >= 8, "{limits} limits");
}
