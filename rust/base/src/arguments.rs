//! The command line: words, options and their values.

use crate::failure::Failure;
use crate::spelling::nearest;
use std::ffi::{OsStr, OsString};
use std::os::unix::ffi::{OsStrExt, OsStringExt};

/// Whether an option has a value.
#[derive(Clone, Copy, Debug, PartialEq, Eq)]
pub enum Value {
    /// It has none.
    None,
    /// It has one: `--words TEXT`, `--words=TEXT`, `-o FILE`, `-oFILE`.
    Needed,
    /// It may have one, after `=` alone.
    Optional,
}

/// An option that a command takes.
#[derive(Clone, Copy, Debug)]
pub struct Flag {
    /// Its name, dashes included.
    pub name: &'static str,
    /// Its name of one letter.
    pub letter: Option<char>,
    /// Whether it has a value.
    pub value: Value,
}

impl Flag {
    /// An option without a value.
    pub const fn switch(name: &'static str) -> Flag {
        Flag {
            name,
            letter: None,
            value: Value::None,
        }
    }

    /// An option with a value.
    pub const fn valued(name: &'static str) -> Flag {
        Flag {
            value: Value::Needed,
            ..Flag::switch(name)
        }
    }

    /// An option that may have a value.
    pub const fn optional(name: &'static str) -> Flag {
        Flag {
            value: Value::Optional,
            ..Flag::switch(name)
        }
    }

    /// The same with a name of one letter.
    pub const fn letter(self, letter: char) -> Flag {
        Flag {
            letter: Some(letter),
            ..self
        }
    }
}

/// The words of a command line, sorted.
#[derive(Debug, Default)]
pub struct Arguments {
    words: Vec<OsString>,
    flags: Vec<(&'static str, OsString)>,
}

impl Arguments {
    /// Sorts words; `flags` are the options that are known. After `--` all are words.
    pub fn read(given: impl IntoIterator<Item = OsString>, flags: &[Flag]) -> Result<Arguments, Failure> {
        let mut arguments = Arguments::default();
        let mut given = given.into_iter();
        while let Some(word) = given.next() {
            if word == "--" {
                arguments.words.extend(given.by_ref());
            } else if !is_option(&word) {
                arguments.words.push(word);
            } else if word.as_bytes().starts_with(b"--") {
                arguments.read_long(&word, &mut given, flags)?;
            } else {
                arguments.read_letters(&word, &mut given, flags)?;
            }
        }
        Ok(arguments)
    }

    /// `--name`, `--name VALUE` or `--name=VALUE`.
    fn read_long(
        &mut self,
        word: &OsStr,
        given: &mut dyn Iterator<Item = OsString>,
        flags: &[Flag],
    ) -> Result<(), Failure> {
        let mut parts = word.as_bytes().splitn(2, |byte| *byte == b'=');
        let name = OsStr::from_bytes(parts.next().unwrap_or_default());
        let attached = parts.next().map(|value| OsString::from_vec(value.to_vec()));
        let Some(flag) = flags.iter().find(|flag| name == flag.name) else {
            return Err(unknown(&name.to_string_lossy(), flags));
        };
        let value = match (flag.value, attached) {
            (Value::None, Some(_)) => return Err(Failure::usage(format!("{} has no value", flag.name))),
            (Value::Needed, None) => next_value(flag.name, given)?,
            (_, attached) => attached.unwrap_or_default(),
        };
        self.add(flag, value)
    }

    /// `-q`, `-o VALUE`, `-oVALUE`, and letters together, as `-qo VALUE`.
    fn read_letters(
        &mut self,
        word: &OsStr,
        given: &mut dyn Iterator<Item = OsString>,
        flags: &[Flag],
    ) -> Result<(), Failure> {
        let mut rest = word.as_bytes().get(1..).unwrap_or_default();
        while let [letter, after @ ..] = rest {
            let named = |flag: &&Flag| flag.letter == Some(char::from(*letter));
            let Some(flag) = flags.iter().find(named) else {
                return Err(unknown(&word.to_string_lossy(), flags));
            };
            rest = after;
            let value = match flag.value {
                Value::Needed if after.is_empty() => next_value(&format!("-{}", char::from(*letter)), given)?,
                Value::Needed => OsString::from_vec(std::mem::take(&mut rest).to_vec()),
                _ => OsString::new(),
            };
            self.add(flag, value)?;
        }
        Ok(())
    }

    fn add(&mut self, flag: &Flag, value: OsString) -> Result<(), Failure> {
        if self.has(flag.name) {
            return Err(Failure::usage(format!("{} is given twice", flag.name)));
        }
        self.flags.push((flag.name, value));
        Ok(())
    }

    /// Whether an option was given.
    pub fn has(&self, name: &str) -> bool {
        self.value(name).is_some()
    }

    /// The value of an option.
    pub fn value(&self, name: &str) -> Option<&OsStr> {
        let found = self.flags.iter().find(|(flag, _)| *flag == name);
        found.map(|(_, value)| value.as_os_str())
    }

    /// The value of an option that is a number, or the usual one.
    pub fn number(&self, name: &str, usual: u64) -> Result<u64, Failure> {
        let Some(value) = self.value(name).map(OsStr::to_string_lossy) else {
            return Ok(usual);
        };
        let number = value.parse().ok().filter(|_| is_plain(&value));
        number.ok_or_else(|| Failure::usage(format!("{name} takes a number, and '{value}' is none")))
    }

    /// All words that are no options.
    pub fn all(&self) -> impl ExactSizeIterator<Item = &OsStr> {
        self.words.iter().map(OsString::as_os_str)
    }

    /// The words, of which there have to be as many as they have names.
    pub fn words<const N: usize>(&self, names: [&str; N]) -> Result<[&OsStr; N], Failure> {
        let words: Vec<&OsStr> = self.all().collect();
        if let Some(extra) = words.get(N) {
            return Err(Failure::usage(format!(
                "{} is one word too many",
                extra.to_string_lossy()
            )));
        }
        let missing = names.get(words.len()).copied().unwrap_or_default();
        words
            .try_into()
            .map_err(|_| Failure::usage(format!("{missing} is missing")))
    }

    /// The words, of which there has to be at least one.
    pub fn some_words(&self, name: &str) -> Result<Vec<&OsStr>, Failure> {
        let words: Vec<&OsStr> = self.all().collect();
        if words.is_empty() {
            return Err(Failure::usage(format!("{name} is missing")));
        }
        Ok(words)
    }
}

/// The word after an option that needs a value.
fn next_value(name: &str, given: &mut dyn Iterator<Item = OsString>) -> Result<OsString, Failure> {
    let value = given.next().filter(|value| !is_option(value));
    value.ok_or_else(|| Failure::usage(format!("{name} needs a value after it")))
}

fn unknown(word: &str, flags: &[Flag]) -> Failure {
    let meant = nearest(word, flags.iter().map(|flag| flag.name));
    let hint = meant
        .map(|meant| format!("; did you mean {meant}?"))
        .unwrap_or_default();
    Failure::usage(format!("there is no option {word}{hint}"))
}

/// Whether a word is meant as an option; `-` is standard input, and a negative number is a number.
fn is_option(word: &OsStr) -> bool {
    match word.as_bytes() {
        [b'-', first, ..] => !first.is_ascii_digit(),
        _ => false,
    }
}

fn is_plain(word: &str) -> bool {
    word.bytes().all(|byte| byte.is_ascii_digit())
}

/// The number that a word is, if it has nothing but digits.
pub fn digits(word: &str) -> Option<u32> {
    word.parse().ok().filter(|_| is_plain(word))
}

/// A record number as it was typed.
pub fn number(word: &OsStr, name: &str) -> Result<u32, Failure> {
    let text = word.to_string_lossy();
    digits(&text).ok_or_else(|| Failure::usage(format!("{name} is a record number, and '{text}' is none")))
}

#[cfg(test)]
mod tests {
    #![allow(clippy::unwrap_used)]

    use super::{Arguments, Flag};
    use crate::failure::Failure;

    const FLAGS: [Flag; 4] = [
        Flag::switch("--json"),
        Flag::switch("--quiet").letter('q'),
        Flag::valued("--output").letter('o'),
        Flag::optional("--color"),
    ];

    fn read(words: &[&str]) -> Result<Arguments, Failure> {
        Arguments::read(words.iter().map(Into::into), &FLAGS)
    }

    #[test]
    fn options_have_their_values_in_every_form() {
        for words in [
            &["--output", "x"][..],
            &["--output=x"],
            &["-o", "x"],
            &["-ox"],
            &["-qox"],
            &["a", "-qo", "x"],
        ] {
            assert_eq!(read(words).unwrap().value("--output").unwrap(), "x", "{words:?}");
        }
        assert_eq!(read(&["--output=-x=y"]).unwrap().value("--output").unwrap(), "-x=y");
        assert_eq!(read(&["--color"]).unwrap().value("--color").unwrap(), "");
        assert_eq!(read(&["--color", "x"]).unwrap().words(["X"]).unwrap(), ["x"]);
        assert_eq!(read(&["--color=never"]).unwrap().value("--color").unwrap(), "never");
        assert_eq!(read(&["-o", "-"]).unwrap().value("--output").unwrap(), "-");
        assert_eq!(
            read(&["-1", "--", "-q"]).unwrap().words(["A", "B"]).unwrap(),
            ["-1", "-q"]
        );
    }

    #[test]
    fn what_is_wrong_is_said() {
        for (words, message) in [
            (&["--nonsense"][..], "there is no option --nonsense"),
            (&["--jsno"], "there is no option --jsno; did you mean --json?"),
            (&["-x"], "there is no option -x"),
            (&["--json=1"], "--json has no value"),
            (&["--output"], "--output needs a value after it"),
            (&["-o", "--json"], "-o needs a value after it"),
            (&["--json", "--json"], "--json is given twice"),
            (&["-q", "--quiet"], "--quiet is given twice"),
            (&["-qq"], "--quiet is given twice"),
        ] {
            assert_eq!(read(words).unwrap_err().message, message);
        }
        assert_eq!(read(&[]).unwrap().words(["A"]).unwrap_err().message, "A is missing");
        let many = read(&["a", "b"]).unwrap();
        assert_eq!(many.words(["A"]).unwrap_err().message, "b is one word too many");
    }
}
