//! The terms that people name on the command line.

#[cfg(test)]
mod tests;

use crate::cause;
use crate::display::counted;
use crate::input::Input;
use crate::json::Json;
use crate::refused;
use crate::report::{Report, Stop, Style};
use crate::text::cursor::{quoted, Fault};
use crate::text::said::Term;
use crate::text::terms::record;
use crate::text::words::{Words, Wrong, FORMS};
use base::arguments::digits;
use base::vocabulary::Vocabulary;
use base::{Failure, Status};
use judge::{Builder, Refusal, Rule};
use std::ffi::OsStr;

/// The terms that are asked about, A and B, by their records.
pub type Pair = [u32; 2];

/// The terms that two words name. Those that no record says are added to the vocabulary, as it is asked about; its file stays.
pub fn pair(style: Style, input: &mut Input, words: [&OsStr; 2]) -> Result<Pair, Stop> {
    let [a, b] = words.map(OsStr::to_string_lossy);
    if let [Some(a), Some(b)] = [digits(&a), digits(&b)] {
        return Ok([a, b]);
    }
    let asked = ask(input, [&a, &b]).map_err(|wrong| stopped(style, input, [("A", &a), ("B", &b)], wrong))?;
    extend(input, &asked).map_err(|refused| Stop::from(refused.report(style, input)))?;
    Ok(asked.pair)
}

/// The record of the term that a word names, which is there.
pub fn existing(style: Style, input: &Input, word: &OsStr, name: &str) -> Result<u32, Stop> {
    let word = word.to_string_lossy();
    if let Some(number) = digits(&word) {
        return Ok(number);
    }
    accepted(input).map_err(|refused| Stop::from(refused.report(style, input)))?;
    let read = Words::of_records(&Vocabulary::read(&input.bytes), &input.names).term(&word);
    read.map_err(|wrong| match wrong {
        Wrong::NoTerm(meant) => no_term(name, &word, &meant).into(),
        Wrong::Faults(faults) => faulty(style, input, &told(&word, faults)).into(),
    })
}

/// Two terms that were asked about.
pub struct Asked {
    /// Their records.
    pub pair: Pair,
    /// The terms that no record says yet.
    pub added: Vec<Term>,
}

impl Asked {
    /// Terms that are named by the numbers of their records.
    pub fn numbers(pair: Pair) -> Asked {
        Asked {
            pair,
            added: Vec::new(),
        }
    }
}

/// What was asked about and is refused: with what would be wrong, where that is a term that is to be added.
pub struct Refused {
    /// The refusal.
    pub refusal: Refusal,
    detail: Option<String>,
}

impl Refused {
    /// In words.
    pub fn words(&self, input: &Input) -> String {
        refused::words(input, self.refusal, self.detail.as_deref())
    }

    fn report(&self, style: Style, input: &Input) -> Report {
        refused::report(style, input, self.refusal, self.detail.as_deref())
    }
}

/// Why words do not name two terms.
pub enum Unasked {
    /// The vocabulary is refused, or a number in it.
    Refused(Refused),
    /// Which of the words are wrong, and why.
    Words([Option<Wrong>; 2]),
}

/// The terms that two words name.
pub fn ask(input: &Input, words: [&str; 2]) -> Result<Asked, Unasked> {
    accepted(input).map_err(Unasked::Refused)?;
    let vocabulary = Vocabulary::read(&input.bytes);
    let mut reader = Words::of_names(&vocabulary, &input.names);
    let pair = match words.map(|word| reader.term(word)) {
        [Ok(a), Ok(b)] => [a, b],
        wrong => return Err(Unasked::Words(wrong.map(Result::err))),
    };
    let added = reader.into_added();
    // A number that is none of the vocabulary could name a record that is added.
    for number in words.into_iter().filter_map(digits).filter(|_| !added.is_empty()) {
        let is_there = vocabulary.records.len() > number as usize;
        if let Some(refusal) = refusal_of(input, number).filter(|_| !is_there) {
            let detail = cause::vocabulary_detail(&input.bytes, refusal);
            return Err(Unasked::Refused(Refused { refusal, detail }));
        }
    }
    Ok(Asked { pair, added })
}

/// The refusal of a number that is asked about.
fn refusal_of(input: &Input, number: u32) -> Option<Refusal> {
    judge::compare(&input.bytes, number, number, &mut [0; judge::SURVIVOR_BYTES]).err()
}

/// The refusal of a vocabulary.
fn accepted(input: &Input) -> Result<(), Refused> {
    judge::check_vocabulary(&input.bytes)
        .map(|_| ())
        .map_err(|refusal| Refused {
            refusal,
            detail: cause::vocabulary_detail(&input.bytes, refusal),
        })
}

/// Adds terms to a vocabulary, as it is asked about, through the library's writer.
pub fn extend(input: &mut Input, asked: &Asked) -> Result<(), Refused> {
    if asked.added.is_empty() {
        return Ok(());
    }
    let plainly = |refusal| Refused { refusal, detail: None };
    let mut builder = writer(&input.bytes).map_err(plainly)?;
    for term in &asked.added {
        let (a, b) = term.numbers();
        let before = builder.as_bytes().to_vec();
        builder.term(term.kind, a, b).map_err(|refusal| Refused {
            refusal,
            detail: match refusal.rule {
                Rule::Room => Some(no_room(asked)),
                _ => cause::addition_detail(&before, record(*term), refusal),
            },
        })?;
    }
    let before = judge::atoms(&input.bytes).map_err(plainly)?;
    let atoms = judge::atoms(builder.as_bytes()).map_err(plainly)?;
    let is_over = |atoms: u16| usize::from(atoms) > judge::ATOMS;
    if is_over(atoms) && !is_over(before) {
        return Err(Refused {
            refusal: Refusal {
                rule: Rule::Atoms,
                place: atoms.into(),
            },
            detail: Some(too_many(before, atoms)),
        });
    }
    input.extend(builder.as_bytes().to_vec());
    Ok(())
}

/// The library's writer over these bytes, with room for whatever may follow them.
pub fn writer(bytes: &[u8]) -> Result<Builder<Vec<u8>>, Refusal> {
    let mut buffer = bytes.to_vec();
    buffer.resize(bytes.len().max(judge::VOCABULARY_BYTES), 0);
    Builder::resume(buffer, bytes.len())
}

fn no_room(asked: &Asked) -> String {
    let records = counted(asked.added.len() as u64, "record");
    format!("the question needs {records} more, of terms that no record says")
}

fn too_many(before: u16, atoms: u16) -> String {
    let added = counted((atoms - before).into(), "restriction");
    let before = counted(before.into(), "atom");
    format!("the vocabulary has {before}, and the question adds {added} that no record says")
}

/// Why a command stops where words do not name its terms.
fn stopped(style: Style, input: &Input, words: [(&str, &str); 2], unasked: Unasked) -> Stop {
    let wrong = match unasked {
        Unasked::Refused(refused) => return refused.report(style, input).into(),
        Unasked::Words(wrong) => wrong,
    };
    let mut all = Vec::new();
    for ((name, word), wrong) in words.into_iter().zip(wrong) {
        match wrong {
            Some(Wrong::NoTerm(meant)) => return no_term(name, word, &meant).into(),
            Some(Wrong::Faults(faults)) => all.extend(told(word, faults)),
            None => {}
        }
    }
    faulty(style, input, &all).into()
}

fn no_term(name: &str, word: &str, meant: &str) -> Failure {
    Failure::usage(format!("{name} is {FORMS}, and {} is none{meant}", quoted(word)))
}

/// Faults with the word that they are of.
fn told(word: &str, faults: Vec<Fault>) -> Vec<(String, Fault)> {
    faults.into_iter().map(|fault| (word.to_string(), fault)).collect()
}

/// The faults of texts on the command line.
pub fn faulty(style: Style, input: &Input, faults: &[(String, Fault)]) -> Report {
    let word = style.paint(Status::Refused, "fault");
    let line = |(text, fault): &(String, Fault)| {
        let Fault { column, message, .. } = fault;
        format!(
            "{}: {word} in {}, column {column}: {message}\n",
            input.name,
            quoted(text)
        )
    };
    let fields = |(text, fault): &(String, Fault)| {
        [
            ("text", Json::from(text.as_str())),
            ("line", Json::from(fault.line)),
            ("column", Json::from(fault.column)),
            ("message", Json::from(fault.message.as_str())),
        ]
    };
    let mut json = vec![
        ("file", Json::from(input.name.as_str())),
        ("verdict", Json::from("faulty")),
    ];
    json.extend(faults.first().into_iter().flat_map(fields));
    json.push((
        "faults",
        Json::list(faults.iter().map(|fault| Json::object(fields(fault)))),
    ));
    Report::new(Status::Refused, faults.iter().map(line).collect(), json)
}
