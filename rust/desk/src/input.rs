//! Vocabularies and scripts, from their bytes or from their texts.

use crate::beside::{self, Beside};
use crate::display::{counted, grouped};
use crate::files::{self, Access, FileId, Length, Name, Opened, Source};
use crate::finding::{Finding, Ground, Spot};
use crate::json::Json;
use crate::report::{Report, Stop, Style};
use crate::text::cursor::Fault;
use crate::text::names::Names;
use crate::text::{self, Assembled, Kind, Line, TEXT_BYTES};
use base::spelling::nearest;
use base::vocabulary::HEADER_KIND;
use base::{Failure, Status};
use judge::{Edition, Place, Refusal, Rule};
use std::ffi::OsStr;

/// The most faults of a text that are listed.
const LISTED: usize = 20;

/// A vocabulary or a script.
pub struct Input {
    /// The name by which messages call it.
    pub name: Name,
    /// Its bytes; where they were read from a file, never more than one over the limit.
    pub bytes: Vec<u8>,
    /// Which file it is, if it is a regular one.
    pub id: Option<FileId>,
    /// What people call its names and roles.
    pub names: Names,
    /// The file that has them, if it is one beside a vocabulary's bytes.
    pub beside: Option<Beside>,
    length: Length,
    /// Of a text, the line of each record.
    lines: Option<Vec<Line>>,
    /// The bytes as they were given, where terms were added to them for a question.
    given: Option<Vec<u8>>,
}

impl Input {
    /// What a text of this name stands for.
    pub fn assembled(name: &Name, id: Option<FileId>, assembled: Assembled) -> Input {
        Input {
            name: name.clone(),
            length: Length::of(&assembled.bytes),
            bytes: assembled.bytes,
            id,
            names: assembled.names,
            beside: None,
            lines: Some(assembled.lines),
            given: None,
        }
    }

    /// A file that is not there, and has no bytes.
    pub fn absent(name: Name) -> Input {
        Input {
            name,
            bytes: Vec::new(),
            id: None,
            names: Names::default(),
            beside: None,
            length: Length::of(&[]),
            lines: None,
            given: None,
        }
    }

    /// A copy to ask about. The names beside it stay with the first.
    pub fn copy(&self) -> Input {
        Input {
            name: self.name.clone(),
            bytes: self.bytes.clone(),
            id: self.id,
            names: self.names.clone(),
            beside: None,
            length: self.length,
            lines: self.lines.clone(),
            given: self.given.clone(),
        }
    }

    /// The files that it was read from, which no output replaces: its own, and that of its names.
    pub fn files(&self) -> [Option<FileId>; 2] {
        [self.id, self.beside.as_ref().and_then(|beside| beside.id)]
    }

    /// Gives the bytes of a copy to which terms were added for a question.
    pub fn extend(&mut self, bytes: Vec<u8>) {
        let given = std::mem::replace(&mut self.bytes, bytes);
        self.given.get_or_insert(given);
    }

    /// The bytes without what was added for a question.
    pub fn given(&self) -> &[u8] {
        self.given.as_deref().unwrap_or(&self.bytes)
    }

    /// The records that were made for lines which have their terms as operands, where there is a text.
    pub fn made(&self) -> Vec<u16> {
        let lines = self.lines.iter().flatten().enumerate();
        lines
            .filter(|(_, line)| line.is_made)
            .map(|(number, _)| number as u16)
            .collect()
    }

    /// What people call its names and roles; where nothing is known of that, what the text calls them that --words names.
    pub fn names_or<'a>(&'a self, words: Option<&'a Input>) -> &'a Names {
        match words {
            Some(text) if self.names.is_empty() && self.is_said_by(text) => &text.names,
            _ => &self.names,
        }
    }

    /// Takes the names of the text that --words names, where none are known.
    pub fn take_names(&mut self, words: Option<&Input>) {
        self.names = self.names_or(words).clone();
    }

    /// Gives the vocabulary that was read from this path other bytes. The names beside it fit before and after.
    pub fn replace(&self, path: &OsStr, bytes: &[u8]) -> Result<(), Failure> {
        if let Some(beside) = &self.beside {
            beside.renew(&self.bytes, bytes)?;
        }
        files::renew(path, &self.bytes, bytes)
    }

    /// The comment on the line of each record, where there is a text.
    pub fn comments(&self) -> Option<Vec<String>> {
        let lines = self.lines.as_ref()?;
        Some(lines.iter().map(|line| line.comment.clone()).collect())
    }

    /// The line and column of a record, where there is a text.
    pub fn line_of(&self, record: u32) -> Option<(usize, usize)> {
        let line = self.lines.as_ref()?.get(record as usize)?;
        Some((line.number, line.column))
    }

    /// The line and column that a refusal is about, where there is a text. A header is record 0; of what it holds (28) the
    /// place is no record, but what it should hold.
    pub fn place_of(&self, refusal: Refusal) -> Option<(usize, usize)> {
        match (refusal.rule.place(), refusal.rule) {
            (Place::Record | Place::ScriptRecord, _) => self.line_of(refusal.place),
            (_, Rule::Header | Rule::ScriptHeader | Rule::AtomCount) => self.line_of(0),
            _ => None,
        }
    }

    /// Whether a text says this vocabulary, be it with a header of the other edition: filed ones have edition 1, and a text
    /// that says none makes edition 2.
    pub fn is_said_by(&self, text: &Input) -> bool {
        in_first_edition(self.given()) == in_first_edition(&text.bytes)
    }

    /// The name, with line and column where they are known.
    pub fn at(&self, place: Option<(usize, usize)>) -> String {
        match place {
            Some((line, column)) => format!("{}:{line}:{column}", self.name),
            None => self.name.to_string(),
        }
    }

    /// What is known of the input beside a refusal: its length, and what may have been mistaken for it.
    pub fn hint(&self, refusal: Refusal) -> String {
        let number = refusal.rule.number();
        let size = match (number, &self.lines) {
            (1, Some(lines)) => self.too_many(lines.len(), judge::RECORDS),
            (13, Some(lines)) => self.too_many(lines.len(), judge::SCRIPT_RECORDS),
            (1 | 13, None) => format!("; {}", self.length),
            _ => String::new(),
        };
        let begins = match (self.bytes.as_slice(), number) {
            ([32, 0, ..], 1 | 2) => "; it begins as a script",
            ([HEADER_KIND, 1 | 2, ..], 13 | 14) => "; it begins as a vocabulary",
            _ => "",
        };
        format!("{size}{begins}")
    }

    /// What is said of a text that makes more records than a file may have.
    fn too_many(&self, records: usize, most: usize) -> String {
        let made = match self.made().len() {
            0 => String::new(),
            made => format!(", {} of them for terms that no line says", grouped(made as u64)),
        };
        let (records, most) = (counted(records as u64, "record"), grouped(most as u64));
        format!("; the text makes {records}{made}, and {most} is the most")
    }
}

/// A vocabulary with a header of edition 1; what is refused stays as it is.
fn in_first_edition(bytes: &[u8]) -> Vec<u8> {
    let mut copy = bytes.to_vec();
    let _ = judge::set_edition(&mut copy, Edition::One);
    copy
}

/// Whether bytes begin as a text: with a comment, or with the first word of one, be it misspelt.
fn is_text(bytes: &[u8]) -> bool {
    let bytes = bytes
        .strip_prefix("\u{feff}".as_bytes())
        .unwrap_or(bytes)
        .trim_ascii_start();
    let end = bytes
        .iter()
        .position(|byte| !byte.is_ascii_alphabetic())
        .unwrap_or(bytes.len());
    let word = String::from_utf8_lossy(bytes.get(..end).unwrap_or_default());
    let words = [Kind::Vocabulary, Kind::Script].map(Kind::word);
    bytes.starts_with(b"--") || words.contains(&word.as_ref()) || nearest(&word, words).is_some()
}

/// The file of a vocabulary or of a script, as it is.
pub fn source(path: &OsStr, access: Access, kind: Kind) -> Result<Source, Failure> {
    match kind {
        Kind::Vocabulary => read(path, access, judge::VOCABULARY_BYTES),
        Kind::Script => read(path, access, judge::SCRIPT_BYTES),
    }
}

/// Reads a vocabulary or a script; `most` is the length from which the library refuses it.
fn read(path: &OsStr, access: Access, most: usize) -> Result<Source, Failure> {
    files::read(
        path,
        access,
        most,
        |first| if is_text(first) { TEXT_BYTES } else { most },
    )
}

/// A vocabulary, from its bytes or its text.
pub fn vocabulary(path: &OsStr, access: Access, style: Style) -> Result<Input, Stop> {
    from(
        source(path, access, Kind::Vocabulary)?,
        path,
        access,
        Kind::Vocabulary,
        style,
    )
}

/// What the file of a vocabulary, or of a script, has; a vocabulary with the names beside it.
pub fn from(source: Source, path: &OsStr, access: Access, kind: Kind, style: Style) -> Result<Input, Stop> {
    let input = of_kind(source, kind, style)?;
    Ok(match kind {
        Kind::Vocabulary => with_names(input, path, access),
        Kind::Script => input,
    })
}

/// A vocabulary with the names beside it, if it was read from the bytes of a regular file.
fn with_names(input: Input, path: &OsStr, access: Access) -> Input {
    let is_standard_input = path == "-" && access == Access::Any;
    // A longer one was not read whole, and is refused.
    let is_whole = input.bytes.len() <= judge::VOCABULARY_BYTES;
    if input.lines.is_some() || input.id.is_none() || is_standard_input || !is_whole {
        return input;
    }
    match beside::find(path, &input.bytes) {
        Some((names, beside)) => Input {
            names,
            beside: Some(beside),
            ..input
        },
        None => input,
    }
}

/// A vocabulary that is to be changed, from its bytes alone, and its file, which no other run changes while it is open. For
/// a text there is advice.
pub fn vocabulary_to_change(path: &OsStr, advice: &str) -> Result<(Input, Opened), Failure> {
    if path == "-" {
        return Err(Failure::usage("FILE is a file to change, and '-' is none"));
    }
    let mut opened = files::open_to_change(path)?;
    let most = judge::VOCABULARY_BYTES;
    let source = files::read_opened(&mut opened, most, |_| most)?;
    if is_text(&source.bytes) {
        let message = format!("{}: is a text; {advice}", source.name);
        return Err(Failure::new(Status::NoInput, message));
    }
    Ok((with_names(of_bytes(source), path, Access::Regular), opened))
}

/// A script, from its bytes or its text.
pub fn script(path: &OsStr, access: Access, style: Style) -> Result<Input, Stop> {
    of_kind(source(path, access, Kind::Script)?, Kind::Script, style)
}

/// A vocabulary or a script, and which of the two, from its bytes or its text. Bytes that begin as a script are one.
pub fn either(path: &OsStr, style: Style) -> Result<(Input, Kind), Stop> {
    let source = read(path, Access::Any, judge::SCRIPT_BYTES)?;
    if is_text(&source.bytes) {
        return of_text(source, style);
    }
    let kind = match source.bytes.as_slice() {
        [32, 0, ..] => Kind::Script,
        _ => Kind::Vocabulary,
    };
    let input = of_bytes(source);
    Ok(match kind {
        Kind::Script => (input, kind),
        Kind::Vocabulary => (with_names(input, path, Access::Any), kind),
    })
}

/// A text, and what it is of.
pub fn text(path: &OsStr, style: Style) -> Result<(Input, Kind), Stop> {
    of_text(text_source(path)?, style)
}

/// The file of a text, as it is.
pub fn text_source(path: &OsStr) -> Result<Source, Failure> {
    files::read(path, Access::Any, TEXT_BYTES, |_| TEXT_BYTES)
}

/// The bytes of a vocabulary or of its text, as its file has them.
pub fn source_of_vocabulary(path: &OsStr) -> Result<Source, Failure> {
    read(path, Access::Any, judge::VOCABULARY_BYTES)
}

fn of_bytes(source: Source) -> Input {
    Input {
        name: source.name,
        bytes: source.bytes,
        id: source.id,
        names: Names::default(),
        beside: None,
        length: source.length,
        lines: None,
        given: None,
    }
}

fn of_kind(source: Source, wanted: Kind, style: Style) -> Result<Input, Stop> {
    if !is_text(&source.bytes) {
        return Ok(of_bytes(source));
    }
    let (input, kind) = of_text(source, style)?;
    if kind != wanted {
        let (name, is, wanted) = (&input.name, kind.word(), wanted.word());
        let message = format!("{name}: is the text of a {is}, and a {wanted} is needed");
        return Err(Failure::new(Status::Refused, message).into());
    }
    Ok(input)
}

/// What a text has, and what it is of.
pub fn of_text(source: Source, style: Style) -> Result<(Input, Kind), Stop> {
    let Source { name, bytes, id, .. } = source;
    let text = files::text_of(&name, bytes, TEXT_BYTES)?;
    match text::assemble(&text) {
        Ok(assembled) => {
            let kind = assembled.kind;
            Ok((Input::assembled(&name, id, assembled), kind))
        }
        Err(faults) => Err(faulty(style, &name, &faults).into()),
    }
}

/// The faults of a text.
fn faulty(style: Style, name: &Name, faults: &[Fault]) -> Report {
    let word = style.paint(Status::Refused, "fault");
    let mut text = String::new();
    for Fault { line, column, message } in faults.iter().take(LISTED) {
        text.push_str(&format!("{name}:{line}:{column}: {word}: {message}\n"));
    }
    if faults.len() > LISTED {
        let more = counted((faults.len() - LISTED) as u64, "more fault");
        text.push_str(&format!("{name}: and {more}\n"));
    }
    let place = |fault: &Fault| {
        [
            ("line", Json::from(fault.line)),
            ("column", Json::from(fault.column)),
            ("message", Json::from(fault.message.as_str())),
        ]
    };
    let mut json = vec![("file", Json::from(name.as_str())), ("verdict", Json::from("faulty"))];
    json.extend(faults.first().into_iter().flat_map(place));
    json.push((
        "faults",
        Json::list(faults.iter().map(|fault| Json::object(place(fault)))),
    ));
    let finding = |fault: &Fault| Finding {
        ground: Ground::Fault,
        spot: Spot::Line(fault.line, fault.column),
        message: fault.message.clone(),
    };
    Report {
        findings: faults.iter().map(finding).collect(),
        ..Report::new(Status::Refused, text, json)
    }
}
