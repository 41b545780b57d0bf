//! `desk`: the duty vocabulary judge as a command. It decides nothing by itself: every verdict is the library's.

#![deny(unsafe_code)]

mod beside;
mod cause;
mod columns;
mod commands;
mod console;
mod date;
mod display;
mod drawing;
mod explain;
mod files;
mod finding;
mod help;
mod html;
mod input;
mod json;
mod justification;
mod model;
mod notes;
mod question;
mod refused;
mod report;
mod sarif;
mod script;
mod signals;
#[cfg(test)]
mod stored;
mod streams;
mod taxonomy;
mod term;
mod text;
mod trace;

use crate::commands::COMMON;
use crate::console::{complain, Colour, Console};
use crate::report::Stop;
use base::arguments::Arguments;
use base::{Failure, Status};
use std::ffi::{OsStr, OsString};
use std::process::ExitCode;

fn main() -> ExitCode {
    signals::prepare();
    call(std::env::args_os().skip(1).collect()).into()
}

/// Runs the command that the words name. Options that every command has may stand before it, too.
fn call(mut words: Vec<OsString>) -> Status {
    let is_word = |word: &OsString| !word.to_string_lossy().starts_with('-');
    let Some(at) = words.iter().position(is_word) else {
        return without_command(words);
    };
    let name = words.remove(at).to_string_lossy().into_owned();
    let mut console = Console::new(&name, has(&words, "--json"), false, Colour::Auto);
    let page = help::page(&name);
    let wants_help = has(&words, "--help") || has(&words, "-h");
    if name == "help" {
        return help_on(&mut console, words.first());
    }
    let (Some(page), Some(command)) = (page, commands::find(&name)) else {
        let names = commands::names().chain(["help"]);
        return unknown(&name, "command", names, has(&words, "--json"));
    };
    if wants_help {
        return say(&mut console, &page);
    }
    let done = commands::run(command, words, &mut console);
    finish(&mut console, done, page.lines().next())
}

/// Says what stopped a command, if anything did.
fn finish(console: &mut Console, done: Result<Status, Stop>, usage: Option<&str>) -> Status {
    let failure = match done {
        Ok(status) => return status,
        Err(Stop::Failure(failure)) => failure,
        Err(Stop::Answer(report)) => match console.answer(*report) {
            Ok(status) => return status,
            Err(failure) => failure,
        },
    };
    console.fail(&failure, usage)
}

/// Whether an option is among the words.
fn has(words: &[OsString], option: &str) -> bool {
    words.iter().take_while(|word| *word != "--").any(|word| word == option)
}

/// `desk` without a command.
fn without_command(words: Vec<OsString>) -> Status {
    let mut console = Console::new("desk", has(&words, "--json"), false, Colour::Auto);
    if has(&words, "--version") || has(&words, "-V") {
        return say(&mut console, concat!("desk ", env!("CARGO_PKG_VERSION"), "\n"));
    }
    if has(&words, "--help") || has(&words, "-h") {
        return say(&mut console, &help::all());
    }
    if let Err(failure) = Arguments::read(words, &COMMON) {
        return console.fail(&failure, None);
    }
    complain(&help::all());
    Status::Usage
}

/// Says that a word is no command, or what else is wanted there.
fn unknown(word: &str, wanted: &str, words: impl Iterator<Item = &'static str>, as_json: bool) -> Status {
    let meant = base::spelling::nearest(word, words);
    let hint = meant.map_or_else(String::new, |meant| format!(" did you mean '{meant}'?"));
    let message = format!("there is no {wanted} '{word}';{hint} 'desk --help' lists them");
    Console::new("desk", as_json, false, Colour::Never).fail(&Failure::usage(message), None)
}

/// `desk help`, or `desk help TOPIC`.
fn help_on(console: &mut Console, topic: Option<&OsString>) -> Status {
    let topic = topic.map(|topic| OsStr::to_string_lossy(topic));
    let topic = topic
        .as_deref()
        .filter(|topic| !topic.starts_with('-') && *topic != "help");
    match topic {
        None => say(console, &help::all()),
        Some(topic) => match help::page(topic) {
            Some(page) => say(console, &page),
            None => unknown(topic, "command or topic", help::names(), console.json),
        },
    }
}

/// Says a text that is no verdict.
fn say(console: &mut Console, text: &str) -> Status {
    let done = console.bytes(text.as_bytes()).map(|()| Status::Holds);
    finish(console, done.map_err(Stop::from), None)
}
