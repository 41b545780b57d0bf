//! desk(1), in man/desk.1, has the commands and the options that the help has, and no others; its examples are what desk says.
//!
//! `DESK_WRITE=1 cargo test --release -p desk --test manual` writes the answers of the examples into it.

#![allow(clippy::unwrap_used)]

mod support;

use std::fs;
use support::help::{commands, common, differences, read, Offers, Words};
use support::{root, Place};

/// The options of a line of the manual page: `Fl o , -output Ar FILE` is -o and --output.
fn flags(line: &str) -> Vec<String> {
    let mut found = Vec::new();
    let mut is_flag = false;
    for word in line.trim_start_matches('.').split(' ') {
        let mut letters = word.chars();
        let is_macro =
            word.len() == 2 && letters.all(char::is_alphabetic) && word.starts_with(|c: char| c.is_ascii_uppercase());
        if is_macro {
            is_flag = word == "Fl";
        } else if is_flag && word.len() > usize::from(word.starts_with('-')) && word != "," && word != "." {
            found.push(format!("-{word}"));
        }
    }
    found
}

/// What a section of the manual page has.
fn section<'a>(page: &'a str, name: &str) -> &'a str {
    let begun = page.split(&format!("\n.Sh {name}\n")).nth(1).unwrap();
    begun.split("\n.Sh ").next().unwrap()
}

/// What the manual page has.
fn documented() -> Offers {
    let page = read("man/desk.1");
    let mut offers = Offers::new();
    let mut name = String::new();
    let mut before = "";
    for line in section(&page, "COMMANDS").lines() {
        let begun = line.strip_prefix(".It Ic ");
        let begun = begun.or(line.strip_prefix(".Ic ").filter(|_| before == ".It Xo"));
        if let Some(words) = begun {
            name = words.split(' ').next().unwrap().to_string();
        }
        if !name.is_empty() {
            offers.entry(name.clone()).or_default().extend(flags(line));
        }
        before = line;
    }
    offers
}

#[test]
fn the_manual_page_has_what_the_help_has() {
    assert!(commands().len() >= 14, "{:?}", commands());
    let told = differences("desk(1)", &documented());
    assert!(told.is_empty(), "{}", told.join("\n"));
}

#[test]
fn the_manual_page_has_the_options_of_every_command() {
    let page = read("man/desk.1");
    let described: Words = section(&page, "DESCRIPTION").lines().flat_map(flags).collect();
    assert!(common().is_subset(&described), "{described:?}");
}

/// A line of the manual page as it is read, and the other way round.
fn shown(line: &str) -> String {
    line.replace("\\-", "-").replace("\\&", "").replace("\\e", "\\")
}

fn written(line: &str) -> String {
    let line = line.replace('\\', "\\e").replace('-', "\\-");
    let begins_as_macro = line.starts_with(['.', '\'']);
    format!("{}{line}\n", if begins_as_macro { "\\&" } else { "" })
}

/// Runs the examples of a page. A file that `cat` prints, and that is not there, is written first.
fn run_examples(place: &Place, page: &str) -> (String, usize) {
    let (before, examples) = page.split_once("\n.Sh EXAMPLES\n").unwrap();
    let mut made = format!("{before}\n.Sh EXAMPLES\n");
    let mut lines = examples.lines().peekable();
    let mut commands = 0;
    while let Some(line) = lines.next() {
        made.push_str(&format!("{line}\n"));
        let Some(words) = line.strip_prefix("$ ").map(shown) else {
            continue;
        };
        commands += 1;
        let mut answer = String::new();
        while let Some(line) = lines.next_if(|line| !line.starts_with(['$', '.'])) {
            answer.push_str(&format!("{}\n", shown(line)));
        }
        if let Some(name) = words.strip_prefix("cat ").filter(|name| !place.file(name).exists()) {
            fs::write(place.file(name), answer).unwrap();
        }
        made.extend(place.said(&words).0.lines().map(written));
    }
    (made, commands)
}

#[test]
fn the_examples_of_the_manual_page_are_what_desk_says() {
    let page = read("man/desk.1");
    let (made, commands) = run_examples(&Place::new("manual"), &page);
    if std::env::var_os("DESK_WRITE").is_some() {
        fs::write(root().join("man/desk.1"), &made).unwrap();
    } else {
        assert!(made == page, "man/desk.1: the examples are now\n{made}");
    }
    assert!(commands >= 6, "{commands} commands");
    // a page of 80 columns, in which examples are set in by 11
    let examples = made.split("\n.Sh EXAMPLES\n").nth(1).unwrap();
    let longest = examples.lines().map(|line| shown(line).chars().count()).max();
    assert!(longest <= Some(69), "{longest:?}");
}
