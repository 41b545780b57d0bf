//! The text forms of vocabularies and scripts: a line for each record, so that reading and writing undo each other
//! (docs/DESK.md).

pub mod addition;
mod axioms;
pub mod cursor;
mod lines;
mod manchester;
pub mod names;
pub mod naming;
mod numbers;
pub mod quotes;
mod records;
pub mod said;
pub mod script;
pub mod terms;
#[cfg(test)]
mod tests;
pub mod vocabulary;
pub mod words;

use base::vocabulary::Vocabulary;
use cursor::{Cursor, Fault};
use names::Names;
use naming::Naming;

/// The most bytes of a text; no vocabulary or script needs as many.
pub const TEXT_BYTES: usize = 1 << 20;
/// The word before the first link of a chain, in a header.
const FIRST: &str = "first";
/// The longest text of a term that is written out in another; a longer one is named by its record.
const WRITTEN_OUT: usize = 60;

/// What a text is of.
#[derive(Clone, Copy, Debug, PartialEq, Eq)]
pub enum Kind {
    /// A vocabulary.
    Vocabulary,
    /// A script.
    Script,
}

impl Kind {
    /// The word for it, which is also the first of its text.
    pub fn word(self) -> &'static str {
        match self {
            Kind::Vocabulary => "vocabulary",
            Kind::Script => "script",
        }
    }
}

/// What a text stands for.
#[derive(Clone, Debug, PartialEq, Eq)]
pub struct Assembled {
    /// What it is of.
    pub kind: Kind,
    /// The bytes.
    pub bytes: Vec<u8>,
    /// The line of each record.
    pub lines: Vec<Line>,
    /// What people call its names and roles.
    pub names: Names,
}

/// The line of a record.
#[derive(Clone, Debug, PartialEq, Eq)]
pub struct Line {
    /// Its number, from 1.
    pub number: usize,
    /// The column at which it begins, from 1, in characters.
    pub column: usize,
    /// The comment at its end; empty where there is none.
    pub comment: String,
    /// Whether the record was made for the line, which has its term as an operand.
    pub is_made: bool,
}

impl Line {
    /// The same for a record that was made for the line: what people call the line's own is not what they call this.
    fn of_made(&self) -> Line {
        Line {
            comment: String::new(),
            is_made: true,
            ..*self
        }
    }
}

/// What a text stands for, or what is wrong with it: at least one fault, in the order of the lines.
pub fn assemble(text: &str) -> Result<Assembled, Vec<Fault>> {
    let mut cursors = lines(text);
    let Some(mut header) = cursors.next() else {
        let message = "the text is empty; its first line begins with 'vocabulary' or 'script'";
        return Err(vec![Fault::at(1, 1, message)]);
    };
    let kind = read_kind(&mut header).map_err(|fault| vec![fault])?;
    if kind == Kind::Vocabulary {
        return read_vocabulary(header, text);
    }
    let (bytes, lines) = script::read(header, cursors)?;
    Ok(Assembled {
        kind,
        bytes,
        lines,
        names: Names::default(),
    })
}

/// The bytes of a vocabulary's text, of whose header the first word is taken, the line of each record, and what its names are
/// called. All lines that give a name are read before the others, which may use it.
fn read_vocabulary(header: Cursor, text: &str) -> Result<Assembled, Vec<Fault>> {
    let after_header = || lines(text).skip(1);
    let giving = after_header().filter(|line| naming::sort_of(line).is_some());
    let naming = Naming::read(giving);
    let lacks_names = !naming.faults.is_empty();
    // Where they have too many faults, reading ends.
    let last = naming.faults.get(records::FAULTS).map(|fault| fault.line);
    let others = after_header().take_while(|line| last.is_none_or(|last| line.fault("").line <= last));
    let others = others.filter(|line| naming::sort_of(line).is_none());
    let others = others.map(|line| line.with_names(&naming.names).lacking_names(lacks_names));
    let read = lines::read(header, others);
    let strangers = match &read {
        Ok((bytes, _)) => naming.strangers(&Vocabulary::read(bytes)),
        Err(_) => Vec::new(),
    };
    match (read, [&naming.faults[..], &strangers].concat()) {
        (Ok((bytes, lines)), faults) if faults.is_empty() => Ok(Assembled {
            kind: Kind::Vocabulary,
            bytes,
            lines,
            names: naming.names,
        }),
        (read, faults) => Err(records::merged(read.err().unwrap_or_default(), faults)),
    }
}

/// What a file of names calls the names and roles of a vocabulary, or what is wrong first. Its first line is no part of it.
pub fn names(text: &str, vocabulary: &Vocabulary) -> Result<Names, Fault> {
    let numbered = text.lines().enumerate().skip(1);
    let lines = numbered.map(|(i, line)| Cursor::new(i + 1, line));
    let mut naming = Naming::read(lines.filter(|line| !line.at_end()));
    naming.faults.extend(naming.strangers(vocabulary));
    match naming.faults.into_iter().min_by_key(|fault| fault.line) {
        Some(fault) => Err(fault),
        None => Ok(naming.names),
    }
}

/// Takes the first word of a text, which says what it is of. Where it is no such word, what follows it may say that.
fn read_kind(header: &mut Cursor) -> Result<Kind, Fault> {
    let (vocabulary, script) = (Kind::Vocabulary.word(), Kind::Script.word());
    let place = header.here();
    match header.choose(&[vocabulary, script], "a text begins with 'vocabulary' or 'script'") {
        Ok(word) if word == vocabulary => Ok(Kind::Vocabulary),
        Ok(_) => Ok(Kind::Script),
        Err(fault) => {
            header.note_guess(place, &fault.message);
            let first = kind_by_header(header);
            first
                .or_else(|| {
                    header.skip_word();
                    kind_by_header(header)
                })
                .ok_or(fault)
        }
    }
}

/// The kind of a text by what stands in its header after the first word.
fn kind_by_header(header: &Cursor) -> Option<Kind> {
    if header.clone().keyword("roles") {
        Some(Kind::Vocabulary)
    } else if header.is_lettered('#') {
        Some(Kind::Script)
    } else {
        None
    }
}

/// The lines that say something.
fn lines(text: &str) -> impl Iterator<Item = Cursor<'_>> {
    let all = text.lines().enumerate().map(|(i, line)| Cursor::new(i + 1, line));
    all.filter(|line| !line.at_end())
}

/// The first record after the header that is equal to this.
fn find<T: PartialEq>(records: &[T], wanted: &T) -> Option<usize> {
    let after_header = records.iter().skip(1).position(|record| record == wanted);
    after_header.map(|place| place + 1)
}

/// A text of the header's line and the lines of the other records.
fn whole(header: &str, records: usize, line: impl Fn(usize) -> String) -> String {
    let mut text = format!("{header}\n");
    for number in 1..records {
        text.push_str(&format!("{number}: {}\n", line(number)));
    }
    text
}

/// The line of a statement or step.
fn linked_line(text: &str, chained: &[bool], number: usize, link: u16) -> String {
    if chained.get(number) == Some(&true) {
        let default = base::chain::default_link(chained, number);
        return format!("{text}{}", link_words("next", link, default));
    }
    format!("off {text}{}", link_words("next", link, 0))
}

/// The end of a line that says where a link leads, where `links` would not find it.
fn link_words(word: &str, link: u16, default: u16) -> String {
    if link == default {
        String::new()
    } else {
        format!(" {word} {link}")
    }
}
