//! A place in a line of a text.

use super::names::{Names, Sort, NO_NAMES};
use super::{quotes, Line};
use crate::display::{did_you_mean, plain};
use base::spelling::nearest;

/// The most faults of a line that are kept; more are mostly of one cause.
const PER_LINE: usize = 2;
/// The most characters of a word that a message quotes.
const QUOTED: usize = 40;

/// What is wrong with a text, and where.
#[derive(Clone, Debug, PartialEq, Eq)]
pub struct Fault {
    /// The line, from 1.
    pub line: usize,
    /// The column, from 1, in characters.
    pub column: usize,
    /// What is wrong.
    pub message: String,
}

impl Fault {
    /// A fault at a line and column.
    pub fn at(line: usize, column: usize, message: &str) -> Fault {
        Fault {
            line,
            column,
            message: message.to_string(),
        }
    }
}

/// A place in a line: how many bytes are left from there on. The column is found only where a fault is said.
#[derive(Clone, Copy)]
pub struct Here(usize);

/// A line, and how far it has been read.
#[derive(Clone)]
pub struct Cursor<'a> {
    number: usize,
    line: &'a str,
    rest: &'a str,
    comment: &'a str,
    faults: Vec<Fault>,
    guessed: bool,
    names: &'a Names,
    /// Whether a line that gives a name is faulty, so that some name may be missing.
    lacks_names: bool,
}

impl<'a> Cursor<'a> {
    /// The start of a line, of which a comment is no part. A comment begins with `--`.
    pub fn new(number: usize, line: &'a str) -> Cursor<'a> {
        let (line, comment) = quotes::split_comment(line);
        Cursor {
            number,
            line,
            rest: line.trim(),
            comment: comment.unwrap_or_default().trim(),
            faults: Vec::new(),
            guessed: false,
            names: &NO_NAMES,
            lacks_names: false,
        }
    }

    /// The same where names and roles are called so.
    pub fn with_names(self, names: &'a Names) -> Cursor<'a> {
        Cursor { names, ..self }
    }

    /// The same where some name may be missing, since a line that gives one is faulty.
    pub fn lacking_names(self, lacks_names: bool) -> Cursor<'a> {
        Cursor { lacks_names, ..self }
    }

    /// Where the line begins, and the comment at its end.
    pub fn place(&self) -> Line {
        let Fault { line, column, .. } = self.fault_at(Here(self.line.trim().len()), "");
        Line {
            number: line,
            column,
            comment: self.comment.to_string(),
            is_made: false,
        }
    }

    /// Whether nothing is left.
    pub fn at_end(&self) -> bool {
        self.rest.is_empty()
    }

    /// The next character.
    pub fn peek(&self) -> Option<char> {
        self.rest.chars().next()
    }

    /// This place.
    pub fn here(&self) -> Here {
        Here(self.rest.len())
    }

    /// A fault here.
    pub fn fault(&self, message: &str) -> Fault {
        self.fault_at(self.here(), message)
    }

    /// A fault at a place of the line.
    pub fn fault_at(&self, Here(left): Here, message: &str) -> Fault {
        let whole = self.line.trim_end();
        let before = whole.get(..whole.len().saturating_sub(left)).unwrap_or_default();
        Fault::at(self.number, before.chars().count() + 1, message)
    }

    /// Notes a fault after which the line can be read on. At most one is kept for a place.
    pub fn note(&mut self, place: Here, message: &str) {
        if self.faults.len() < PER_LINE {
            self.keep(self.fault_at(place, message));
        }
    }

    /// Notes a fault after which the line is read on by a guess at what was meant.
    pub fn note_guess(&mut self, place: Here, message: &str) {
        self.guessed = true;
        self.note(place, message);
    }

    /// Notes a fault that ends the reading of the line, unless it may come from a guess.
    pub fn stop(&mut self, fault: Fault) {
        if !self.guessed {
            self.keep(fault);
        }
    }

    fn keep(&mut self, fault: Fault) {
        let is_new = self.faults.iter().all(|kept| kept.column != fault.column);
        if is_new && self.faults.len() < PER_LINE {
            self.faults.push(fault);
        }
    }

    /// Whether the line was read on by a guess.
    pub fn is_guessed(&self) -> bool {
        self.guessed
    }

    /// The faults that were noted, by column.
    pub fn into_faults(mut self) -> Vec<Fault> {
        self.faults.sort_by_key(|fault| fault.column);
        self.faults
    }

    /// Moves past so many bytes and the blanks that follow.
    fn advance(&mut self, bytes: usize) {
        self.rest = self.rest.get(bytes..).unwrap_or_default().trim_start();
    }

    /// The bytes from here up to the first character that is not of the kind.
    fn run(&self, is_of_kind: impl Fn(char) -> bool) -> &'a str {
        let end = self.rest.find(|c| !is_of_kind(c)).unwrap_or(self.rest.len());
        self.rest.get(..end).unwrap_or_default()
    }

    /// The word that stands here: letters, digits and colons within it, as in `owl:Thing`.
    fn word(&self) -> &'a str {
        self.run(|c| c.is_ascii_alphanumeric() || c == ':')
    }

    /// What stands here as a word, be it misspelt: all up to a blank or a parenthesis.
    fn written(&self) -> &'a str {
        self.run(|c| !c.is_whitespace() && c != '(' && c != ')')
    }

    /// Whether what stands here as a word may be one of these, be it misspelt.
    pub fn may_be(&self, words: &[&str]) -> bool {
        let written = self.written();
        words.contains(&written) || meant(written, words).is_some()
    }

    /// Moves past what stands here as a word.
    pub fn skip_word(&mut self) {
        self.advance(self.written().len());
    }

    /// Moves past digits.
    pub fn skip_digits(&mut self) {
        self.advance(self.run(|c| c.is_ascii_digit()).len());
    }

    /// Moves past this character if it stands here.
    pub fn skip(&mut self, symbol: char) -> bool {
        let here = self.peek() == Some(symbol);
        if here {
            self.advance(symbol.len_utf8());
        }
        here
    }

    /// Whether this word stands here; it is taken.
    pub fn keyword(&mut self, word: &str) -> bool {
        let here = self.word() == word;
        if here {
            self.advance(word.len());
        }
        here
    }

    /// Takes one of these words, or says that none stands here. A misspelt word counts as the one that it clearly means,
    /// and is noted.
    pub fn choose<'w>(&mut self, words: &[&'w str], expected: &str) -> Result<&'w str, Fault> {
        if let Some(word) = words.iter().find(|word| self.keyword(word)) {
            return Ok(word);
        }
        let written = self.written();
        let (place, meant) = (self.here(), meant(written, words));
        let Some((meant, is_clear)) = meant else {
            return Err(self.fault(expected));
        };
        if !is_clear {
            return Err(self.fault(&misspelt(written, meant)));
        }
        self.note_guess(place, &misspelt(written, meant));
        self.skip_word();
        Ok(meant)
    }

    /// Takes this word, or says that it is missing.
    pub fn expect(&mut self, word: &str) -> Result<(), Fault> {
        self.choose(&[word], &format!("'{word}' is expected here")).map(|_| ())
    }

    /// Takes this character, or says that it is missing. A parenthesis that is left open at the end of the line is noted.
    pub fn symbol(&mut self, symbol: char) -> Result<(), Fault> {
        if self.skip(symbol) {
            return Ok(());
        }
        let message = format!("'{symbol}' is expected here");
        if symbol != ')' || !self.at_end() {
            return Err(self.fault(&message));
        }
        self.note(self.here(), &message);
        Ok(())
    }

    /// Takes a number of 16 bits, without leading zeros.
    pub fn number(&mut self) -> Result<u16, Fault> {
        let digits = self.run(|c| c.is_ascii_digit());
        let plain = digits == "0" || !digits.starts_with('0');
        let Some(number) = digits.parse::<u16>().ok().filter(|_| plain) else {
            return Err(self.fault("a number from 0 to 65535 is expected here, without leading zeros"));
        };
        self.advance(digits.len());
        Ok(number)
    }

    /// Whether a number with this letter before it stands here, be the letter of the wrong case.
    pub fn is_lettered(&self, letter: char) -> bool {
        let mut next = self.rest.chars();
        next.next().is_some_and(|first| first.eq_ignore_ascii_case(&letter))
            && next.next().is_some_and(|second| second.is_ascii_digit())
    }

    /// Takes a number with a letter before it, as in `c7`.
    pub fn lettered(&mut self, letter: char, expected: &str) -> Result<u16, Fault> {
        if !self.is_lettered(letter) {
            return Err(self.fault(expected));
        }
        if self.peek() != Some(letter) {
            let word = self.word();
            self.note_guess(self.here(), &misspelt(word, &word.to_ascii_lowercase()));
        }
        self.rest = self.rest.get(letter.len_utf8()..).unwrap_or_default();
        self.number()
    }

    /// Takes a text in quotation marks, as `"returned sample"`.
    pub fn quoted(&mut self, expected: &str) -> Result<String, Fault> {
        if self.peek() != Some('"') {
            return Err(self.fault(expected));
        }
        let place = |byte: usize| Here(self.rest.len().saturating_sub(byte));
        let (text, bytes) = quotes::read(self.rest).map_err(|(byte, why)| self.fault_at(place(byte), why))?;
        self.advance(bytes);
        Ok(text)
    }

    /// Takes what people call a name, or a role, in quotation marks, and answers which one it is.
    pub fn called(&mut self, sort: Sort) -> Result<u16, Fault> {
        let place = self.here();
        let called = self.quoted("")?;
        self.names.find(sort, &called).ok_or_else(|| {
            // It may be the one that is missing.
            self.guessed |= self.lacks_names;
            let meant = self.names.meant(sort, &called);
            let hint = meant.map(|meant| format!("; did you mean {}?", quoted(meant)));
            let (word, called) = (sort.word(), quoted(&called));
            self.fault_at(
                place,
                &format!("no {word} is called {called}{}", hint.unwrap_or_default()),
            )
        })
    }

    /// That a name or a role is expected here. One without its quotation marks, or misspelt, is told with what was meant.
    pub fn missing(&self, sort: Sort, expected: &str) -> Fault {
        let hint = match self.names.begun(sort, self.rest) {
            Some(name) => format!("; did you mean {}, in double quotes?", quotes::write(name)),
            None => plain(&did_you_mean(self.rest, self.names.meant(sort, self.rest))),
        };
        self.fault(&format!("{expected}{hint}"))
    }

    /// Takes `count` numbers.
    pub fn numbers(&mut self, count: usize) -> Result<Vec<u16>, Fault> {
        (0..count).map(|_| self.number()).collect()
    }

    /// Says what is wrong if something is left.
    pub fn end(&self) -> Result<(), Fault> {
        if self.at_end() {
            Ok(())
        } else {
            Err(self.fault("nothing more is expected on this line"))
        }
    }
}

/// The word of these that a misspelt one may mean, and whether no other is as near. A word of one letter is meant only by
/// that letter, doubled or of the wrong case: any two letters are near each other.
fn meant<'w>(written: &str, words: &[&'w str]) -> Option<(&'w str, bool)> {
    let may_be_meant = |word: &&str| word.len() > 1 || written.chars().all(|c| word.contains(c.to_ascii_lowercase()));
    let words = words.iter().copied().filter(may_be_meant);
    let first = nearest(written, words.clone())?;
    Some((first, nearest(written, words.rev()) == Some(first)))
}

/// What is said of a misspelt word.
fn misspelt(written: &str, meant: &str) -> String {
    format!(
        "{} is not expected here{}",
        quoted(written),
        did_you_mean(written, [meant])
    )
}

/// A word of a text in quotation marks, cut where it is long.
pub fn quoted(word: &str) -> String {
    let cut: String = word.chars().take(QUOTED).collect();
    let more = if cut.len() < word.len() { ".." } else { "" };
    format!("'{}{more}'", plain(&cut))
}
