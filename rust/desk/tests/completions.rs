//! The completions for bash, zsh and fish have the commands and the options that the help has, and no others.
//!
//! The function for bash is called; what is for zsh and fish is read as text. tests/install.sh asks those shells, where they are
//! installed.

#![allow(clippy::unwrap_used)]

mod support;

use std::process::Command;
use support::help::{commands, common, differences, options, printed, read, Offers, Words};
use support::root;

/// What stands in a text between two others.
fn between<'a>(text: &'a str, before: &str, after: &str) -> &'a str {
    text.split(before).nth(1).unwrap().split(after).next().unwrap()
}

/// What bash offers at the last of these words.
fn offered_by_bash(words: &str) -> Words {
    let script = format!(
        "compopt() {{ :; }}; . {}/completions/desk.bash; COMP_WORDS=({words}); COMP_CWORD=$((${{#COMP_WORDS[@]}} - 1)); _desk; \
         printf '%s\\n' \"${{COMPREPLY[@]}}\"",
        root().display()
    );
    let output = Command::new("bash").args(["-c", &script]).output().unwrap();
    assert!(output.stderr.is_empty(), "{}", String::from_utf8_lossy(&output.stderr));
    let said = String::from_utf8(output.stdout).unwrap();
    said.split_whitespace().map(str::to_string).collect()
}

fn in_bash() -> Offers {
    let common = common();
    let names = offered_by_bash("desk ''");
    let with_options = |name: String| {
        let found = offered_by_bash(&format!("desk {name} -"));
        (name, &found - &common)
    };
    names.into_iter().map(with_options).collect()
}

/// What the file for zsh has: `'name:..'` in the list of commands, and an arm `name)` for each, with its options, or variables
/// that have one.
fn in_zsh() -> Offers {
    let file = read("completions/_desk");
    let variables = file.lines().filter_map(|line| line.trim().strip_prefix("local "));
    let variables: Vec<(&str, &str)> = variables.filter_map(|line| line.split_once("='--")).collect();
    let mut offers = Offers::new();
    for line in between(&file, "commands=(\n", "\n  )").lines() {
        let name = line.trim().trim_start_matches('\'').split(':').next().unwrap();
        let mut arm = between(&file, &format!("\n    {name})\n"), ";;").to_string();
        for (variable, value) in &variables {
            arm = arm.replace(&format!("${variable} "), &format!("--{value} "));
        }
        offers.insert(name.to_string(), options(&arm));
    }
    offers
}

/// The word after an option in a line.
fn valued<'a>(line: &'a str, option: &str) -> Option<&'a str> {
    let value = line.split(&format!(" {option} ")).nth(1)?;
    let quoted = value.strip_prefix('\'').and_then(|value| value.split('\'').next());
    quoted.or(value.split(' ').next())
}

/// What the file for fish has.
fn in_fish() -> Offers {
    let file = read("completions/desk.fish");
    let lines = || file.lines().filter(|line| line.starts_with("complete -c desk "));
    let mut offers = Offers::new();
    for line in lines().filter(|line| valued(line, "-n") == Some("__desk_wants_command")) {
        if let Some(name) = valued(line, "-a") {
            offers.insert(name.to_string(), Words::new());
        }
    }
    for line in lines() {
        let Some(names) = valued(line, "-n").and_then(|words| words.strip_prefix("__desk_is ")) else {
            continue;
        };
        let long = valued(line, "-l").map(|name| format!("--{name}"));
        let short = valued(line, "-s").map(|name| format!("-{name}"));
        let found: Words = long.into_iter().chain(short).collect();
        for name in names.split(' ') {
            offers.entry(name.to_string()).or_default().extend(found.clone());
        }
    }
    offers
}

#[test]
fn the_completions_have_what_the_help_has() {
    assert!(commands().len() >= 14, "{:?}", commands());
    let places = [("desk.bash", in_bash()), ("_desk", in_zsh()), ("desk.fish", in_fish())];
    let told: Vec<String> = places
        .iter()
        .flat_map(|(place, found)| differences(place, found))
        .collect();
    assert!(told.is_empty(), "{}", told.join("\n"));
}

#[test]
fn the_completions_have_the_options_of_every_command() {
    let common = common();
    let wanted: Words = ["--json", "-q", "--quiet", "--color", "-h", "--help", "-V", "--version"]
        .map(str::to_string)
        .into();
    assert_eq!(common, wanted);
    assert_eq!(offered_by_bash("desk -"), common);
    let zsh = read("completions/_desk");
    let of_all = options(between(&zsh, "common=(\n", "\n  )"));
    let of_none = options(between(&zsh, "_arguments -C -A '-*' $common ", "'1:command"));
    assert_eq!(&of_all | &of_none, common);
    let fish = read("completions/desk.fish");
    for name in common.iter().map(|option| option.trim_start_matches('-')) {
        let (long, short) = (format!(" -l {name} "), format!(" -s {name} "));
        assert!(fish.contains(&long) || fish.contains(&short), "{name}");
    }
}

/// The options that take a value, by how the help calls them: `--words TEXT`, `--format=gcc`.
fn options_with_values() -> Words {
    let mut found = Words::new();
    for name in commands().iter().filter(|name| *name != "help") {
        let page = printed(&[name, "--help"]);
        let usage: Vec<&str> = page.lines().take_while(|line| !line.is_empty()).collect();
        for part in usage.join(" ").split(['[', ']']) {
            let is_alone = part.trim().split([' ', '=']).count() == 1;
            found.extend(options(part).into_iter().filter(|_| !is_alone));
        }
    }
    // the long names of -j and -o are described, and not in the usage
    found.extend(["--jobs".to_string(), "--output".to_string()]);
    found
}

#[test]
fn values_of_options_are_not_taken_for_words() {
    let wanted = options_with_values();
    assert!(
        wanted.contains("--words") && wanted.contains("-o") && wanted.contains("--roles"),
        "{wanted:?}"
    );
    let bash = read("completions/desk.bash");
    assert_eq!(options(between(&bash, "_desk_value() {", "esac")), wanted);
    let fish = read("completions/desk.fish");
    assert_eq!(options(between(&fish, "set -l takes_value ", "\n")), wanted);
}

/// The topics, and the words of `add`, that are offered are those that desk takes.
#[test]
fn topics_and_kinds_are_those_of_the_help() {
    let all = printed(&["--help"]);
    for name in offered_by_bash("desk help ''") {
        printed(&["help", &name]);
    }
    let topics = all
        .split("'desk help ")
        .skip(1)
        .map(|words| words.split('\'').next().unwrap());
    let topics: Words = topics.map(str::to_string).collect();
    assert!(
        topics.len() >= 3 && topics.is_subset(&offered_by_bash("desk help ''")),
        "{topics:?}"
    );
    let page = printed(&["add", "--help"]);
    let kinds = offered_by_bash("desk add f term ''");
    assert_eq!(kinds.len(), 7);
    let files = ["completions/_desk", "completions/desk.fish", "man/desk.1"].map(read);
    for kind in kinds {
        assert!(page.contains(&kind), "{kind}");
        assert!(
            files.iter().all(|file| file.replace("\\:", ":").contains(&kind)),
            "{kind}"
        );
    }
}
