//! The commands: how each is called, its options and what it does.

use std::ffi::{OsStr, OsString};
use std::path::Path;

use base::arguments::{number, Arguments, Flag};
use base::spelling::nearest;
use base::{Failure, Status};

use crate::emit::{self, Form, Language};
use crate::files::read_vocabulary;
use crate::output::{say, say_line};
use crate::question::Question;
use crate::{compare, customs, race};

/// How compound terms stand in what `emit` prints.
const FORM: Flag = Flag::valued("--form");
/// Where the random numbers start.
pub const SEED: Flag = Flag::valued("--seed");
/// How many questions or vocabularies are drawn.
pub const COUNT: Flag = Flag::valued("--count");
/// The seconds that a process may take.
pub const LIMIT: Flag = Flag::valued("--limit");
/// Where the vocabularies of disagreements are kept.
pub const TO: Flag = Flag::valued("--to");
/// The library's program in a race.
pub const OURS: Flag = Flag::valued("--ours");
/// How often each process is run.
pub const REPEATS: Flag = Flag::valued("--repeats");
/// Konclude's program.
pub const KONCLUDE: Flag = Flag::valued("--konclude");
/// The program of FaCT++.
pub const FACT: Flag = Flag::valued("--fact");

/// A command.
struct Command {
    /// Its name, of one word or two.
    name: &'static str,
    /// What stands after its name.
    takes: &'static str,
    flags: &'static [Flag],
    run: fn(&Arguments) -> Result<Status, Failure>,
}

/// The commands; of two that begin alike, the one with the longer name is first.
const COMMANDS: [Command; 9] = [
    Command {
        name: "emit options",
        takes: "TBOX",
        flags: &[],
        run: emit_options,
    },
    Command {
        name: "emit",
        takes: "konclude|fact VOCABULARY A B [--form named|written-out]",
        flags: &[FORM],
        run: emit_query,
    },
    Command {
        name: "answer",
        takes: "VOCABULARY A B | VOCABULARY PAIRS",
        flags: &[],
        run: answer,
    },
    Command {
        name: "compare",
        takes: "[--seed N] [--count N] [--limit SECONDS] [--to DIRECTORY] [--konclude PATH] [--fact PATH]",
        flags: &[SEED, COUNT, LIMIT, TO, KONCLUDE, FACT],
        run: compare::run,
    },
    Command {
        name: "customs",
        takes: "DIRECTORY [--seed N] [--count N]",
        flags: &[SEED, COUNT],
        run: customs::run,
    },
    Command {
        name: "race one",
        takes: "DIRECTORY --ours PROGRAM [--repeats N] [--limit SECONDS] [--konclude PATH] [--fact PATH]",
        flags: &[OURS, REPEATS, LIMIT, KONCLUDE, FACT],
        run: race::one,
    },
    Command {
        name: "race table",
        takes: "DIRECTORY [--repeats N] [--limit SECONDS] [--konclude PATH] [--fact PATH]",
        flags: &[REPEATS, LIMIT, KONCLUDE, FACT],
        run: race::table,
    },
    Command {
        name: "race names",
        takes: "DIRECTORY --ours PROGRAM [--repeats N] [--limit SECONDS] [--konclude PATH] [--fact PATH]",
        flags: &[OURS, REPEATS, LIMIT, KONCLUDE, FACT],
        run: race::names,
    },
    Command {
        name: "race worst",
        takes: "DIRECTORY --ours PROGRAM [--limit SECONDS] [--konclude PATH] [--fact PATH]",
        flags: &[OURS, LIMIT, KONCLUDE, FACT],
        run: race::worst,
    },
];

impl Command {
    /// The words after its name, where the words begin with that.
    fn rest<'w>(&self, words: &'w [OsString]) -> Option<&'w [OsString]> {
        let name: Vec<&str> = self.name.split(' ').collect();
        let (first, rest) = words.split_at_checked(name.len())?;
        (first == name.as_slice()).then_some(rest)
    }

    fn usage(&self) -> String {
        format!("bridge {} {}", self.name, self.takes)
    }
}

/// Runs the command that the words name.
pub fn run(words: Vec<OsString>) -> Result<Status, Failure> {
    if words.iter().any(|word| word == "--help" || word == "-h") {
        say_line(&usage())?;
        return Ok(Status::Holds);
    }
    let found = |command: &'static Command| Some((command, command.rest(&words)?));
    let Some((command, rest)) = COMMANDS.iter().find_map(found) else {
        return Err(no_command(&words));
    };
    let arguments = Arguments::read(rest.iter().cloned(), command.flags);
    arguments
        .and_then(|arguments| (command.run)(&arguments))
        .map_err(|failure| match failure.status {
            Status::Usage => Failure::usage(format!("{}\nusage: {}", failure.message, command.usage())),
            _ => failure,
        })
}

/// How all commands are called.
fn usage() -> String {
    let lines: Vec<String> = COMMANDS.iter().map(Command::usage).collect();
    format!("usage: {}", lines.join("\n       "))
}

/// Why there is no command of the words.
fn no_command(words: &[OsString]) -> Failure {
    let texts: Vec<_> = words.iter().map(|word| word.to_string_lossy()).collect();
    let Some(first) = texts.first() else {
        return Failure::usage(format!("a command is missing\n{}", usage()));
    };
    let begins = |command: &Command| command.name.starts_with(&format!("{first} "));
    let given = match texts.get(1) {
        Some(second) if COMMANDS.iter().any(begins) => format!("{first} {second}"),
        _ => first.to_string(),
    };
    let hint = nearest(&given, COMMANDS.iter().map(|command| command.name))
        .map(|meant| format!("; did you mean {meant}?"))
        .unwrap_or_default();
    Failure::usage(format!("there is no command '{given}'{hint}\n{}", usage()))
}

/// Prints the options file of FaCT++.
fn emit_options(arguments: &Arguments) -> Result<Status, Failure> {
    let [tbox] = arguments.words(["TBOX"])?;
    say(&emit::fact_options(&tbox.to_string_lossy(), Some("Q")))?;
    Ok(Status::Holds)
}

/// Prints a reasoner's input.
fn emit_query(arguments: &Arguments) -> Result<Status, Failure> {
    let [language, path, a, b] = arguments.words(["konclude|fact", "VOCABULARY", "A", "B"])?;
    let language = match language.to_str() {
        Some("konclude") => Language::Konclude,
        Some("fact") => Language::Fact,
        _ => return Err(Failure::usage("the language is konclude or fact")),
    };
    let form = match arguments.value(FORM.name).map(OsStr::to_str) {
        None | Some(Some("named")) => Form::Named,
        Some(Some("written-out")) => Form::WrittenOut,
        Some(_) => return Err(Failure::usage("--form takes named or written-out")),
    };
    let question = asked(path, a, b)?;
    let text = emit::query(language, form, &question.vocabulary, question.a, question.b);
    say(&text.ok_or_else(|| Failure::new(Status::Refused, "a term written out is too long"))?)?;
    Ok(Status::Holds)
}

/// Prints the library's answer about two terms, or the pairs of a file that are equal.
fn answer(arguments: &Arguments) -> Result<Status, Failure> {
    if arguments.all().len() == 2 {
        let [path, pairs] = arguments.words(["VOCABULARY", "PAIRS"])?;
        race::answer_pairs(&read_vocabulary(Path::new(path))?, Path::new(pairs))?;
    } else {
        let [path, a, b] = arguments.words(["VOCABULARY", "A", "B"])?;
        let is_equal = asked(path, a, b)?.is_equal()?;
        say_line(if is_equal { "equal" } else { "different" })?;
    }
    Ok(Status::Holds)
}

/// The question about two terms of a vocabulary's file.
fn asked(path: &OsStr, a: &OsStr, b: &OsStr) -> Result<Question, Failure> {
    let (a, b) = (number(a, "A")?, number(b, "B")?);
    Question::asked(read_vocabulary(Path::new(path))?, a, b)
}
