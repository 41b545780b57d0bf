//! What the help of desk says of its commands and options, to compare with what is said elsewhere.

#![allow(dead_code, clippy::unwrap_used)]

use super::root;
use std::collections::{BTreeMap, BTreeSet};
use std::fs;
use std::process::Command;

/// Words, each once.
pub type Words = BTreeSet<String>;

/// The commands, each with its options beside those of every command.
pub type Offers = BTreeMap<String, Words>;

/// A file of the repository.
pub fn read(path: &str) -> String {
    fs::read_to_string(root().join(path)).unwrap()
}

/// What desk prints on standard output.
pub fn printed(words: &[&str]) -> String {
    let output = Command::new(env!("CARGO_BIN_EXE_desk")).args(words).output().unwrap();
    assert!(output.status.success(), "{words:?}");
    String::from_utf8(output.stdout).unwrap()
}

/// The options in a piece of text: dashes and letters, where no letter or dash is before them.
pub fn options(text: &str) -> Words {
    let is_part = |letter: char| letter == '-' || letter.is_ascii_alphanumeric();
    let pieces = text.split(|letter| !is_part(letter));
    let is_option = |piece: &&str| {
        let name = piece.trim_start_matches('-');
        let dashes = piece.len() - name.len();
        dashes == 2 && name.len() > 1 || dashes == 1 && name.len() == 1
    };
    pieces.filter(is_option).map(str::to_string).collect()
}

/// The lines that say how a command is called, and the beginnings of those that describe its options.
fn calls(page: &str) -> Vec<&str> {
    let usage = page.lines().take_while(|line| !line.is_empty());
    let described = page.lines().filter(|line| line.starts_with("  -"));
    usage
        .chain(described.map(|line| line.trim_start().split("  ").next().unwrap()))
        .collect()
}

/// The options of every command, and those without a command.
pub fn common() -> Words {
    let help = printed(&["--help"]);
    help.lines()
        .filter(|line| line.starts_with("  -"))
        .flat_map(options)
        .collect()
}

/// The commands that the help lists, and `help` itself.
pub fn commands() -> Words {
    let help = printed(&["--help"]);
    let listed = help.lines().filter_map(|line| line.strip_prefix("  "));
    let names = listed.filter(|line| line.starts_with(|letter: char| letter.is_ascii_lowercase()));
    let names = names.map(|line| line.split(' ').next().unwrap());
    names.chain(["help"]).map(str::to_string).collect()
}

/// What the help says.
pub fn helped() -> Offers {
    let common = common();
    let mut offers = Offers::new();
    for name in commands() {
        let page = if name == "help" {
            String::new()
        } else {
            printed(&[&name, "--help"])
        };
        let found: Words = calls(&page).into_iter().flat_map(options).collect();
        offers.insert(name, &found - &common);
    }
    offers
}

/// Where two lists differ, in words.
pub fn differences(place: &str, found: &Offers) -> Vec<String> {
    let helped = helped();
    let none = Words::new();
    let names: BTreeSet<&String> = helped.keys().chain(found.keys()).collect();
    let mut told = Vec::new();
    for name in names {
        match (helped.contains_key(name), found.contains_key(name)) {
            (true, false) => told.push(format!("{place} lacks the command {name}")),
            (false, true) => told.push(format!("{place} has a command {name}, which the help lacks")),
            _ => {}
        }
        let (wanted, offered) = (helped.get(name).unwrap_or(&none), found.get(name).unwrap_or(&none));
        for option in wanted - offered {
            told.push(format!("{place} lacks {option} of {name}"));
        }
        for option in offered - wanted {
            told.push(format!("{place} has {option} of {name}, which the help lacks"));
        }
    }
    told
}
