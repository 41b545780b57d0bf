//! Scripts as text.

use super::cursor::{Cursor, Fault};
use super::records::{read_link, Form, Linked, Unread};
use super::said::{Said, Says, Term, Unsaid};
use super::{link_words, linked_line, whole, Line, WRITTEN_OUT};
use crate::script::{bytes, chained, first_of, firsts, Entry, Extension, Words, HEADER_WORD};
use base::chain::default_link;

/// A script with the text of each term record.
pub struct Written {
    records: Vec<Words>,
    chained: Vec<bool>,
    /// The first record that says the term of each.
    firsts: Vec<u16>,
    terms: Vec<String>,
}

impl Written {
    /// Writes out the terms of a script, whether it is accepted or not.
    pub fn new(records: Vec<Words>) -> Written {
        let mut written = Written {
            chained: chained(&records),
            firsts: firsts(&records),
            records,
            terms: Vec::new(),
        };
        for number in 0..written.records.len() {
            let text = written.term_text(number).unwrap_or_else(|| format!("#{number}"));
            written.terms.push(text);
        }
        written
    }

    fn get(&self, number: usize) -> Words {
        self.records.get(number).copied().unwrap_or_default()
    }

    /// The text of a term: written out where it is short and no earlier record says the same term.
    fn term_text(&self, number: usize) -> Option<String> {
        let entry = Entry::read(self.get(number)).filter(|entry| number > 0 && !entry.is_step())?;
        let is_first = u16::try_from(number).is_ok_and(|own| first_of(&self.firsts, own) == own);
        let is_of_earlier = !matches!(entry, Entry::Function(_, inner) if usize::from(inner) >= number);
        if !is_first || !is_of_earlier {
            return None;
        }
        let text = self.entry_text(number, entry.with_terms(|inner| first_of(&self.firsts, inner)));
        Some(text).filter(|text| text.len() <= WRITTEN_OUT)
    }

    /// A term as the record `number` names it: written out only where it comes before.
    fn term(&self, number: usize, term: u16) -> String {
        match self.terms.get(usize::from(term)) {
            Some(text) if usize::from(term) < number => text.clone(),
            _ => format!("#{term}"),
        }
    }

    /// A term, written out where it is short and its first record is given, and else named by the record.
    pub fn named(&self, term: u16) -> String {
        self.term(usize::MAX, term)
    }

    /// The function and the inner term of a record, if it says them.
    pub fn function(&self, term: u16) -> Option<(u16, u16)> {
        match Entry::read(self.get(usize::from(term)))? {
            Entry::Function(function, inner) => Some((function, inner)),
            _ => None,
        }
    }

    /// A function of a term record, where no record need say it.
    pub fn applied(&self, function: u16, inner: u16) -> String {
        let text = format!("f{function}({})", self.named(inner));
        if text.len() <= WRITTEN_OUT {
            text
        } else {
            format!("f{function}(#{inner})")
        }
    }

    fn entry_text(&self, number: usize, entry: Entry) -> String {
        match entry {
            Entry::Constant => "a".to_string(),
            Entry::Function(function, inner) => format!("f{function}({})", self.term(number, inner)),
            Entry::Start(column) => format!("start {column}"),
            Entry::Extend(e) => {
                let y = if e.y == 0 {
                    String::new()
                } else {
                    format!(" y {}", self.term(number, e.y))
                };
                let x = self.term(number, e.x);
                format!(
                    "extend owner {} column {} x {x}{y} at {}",
                    e.owner, e.column, e.position
                )
            }
            Entry::Reduce(frame) => format!("reduce {frame}"),
        }
    }

    /// The line of the header.
    pub fn header(&self) -> String {
        let words = self.get(0);
        let [HEADER_WORD, a, b, first, 0, 0, 0, 0] = words else {
            return format!("script {}", raw(words));
        };
        let first = link_words("first", first, default_link(&self.chained, 0));
        format!("script #{a} within #{b}{first}")
    }

    /// A record's line, without its number.
    pub fn line(&self, number: usize) -> String {
        let words = self.get(number);
        let Some(entry) = Entry::read(words) else {
            return raw(words);
        };
        let (text, [.., next]) = (self.entry_text(number, entry), words);
        if !entry.is_step() {
            return text;
        }
        linked_line(&text, &self.chained, number, next)
    }

    /// The whole text.
    pub fn text(&self) -> String {
        whole(&self.header(), self.records.len(), |number| self.line(number))
    }
}

/// A record by its words.
fn raw(words: Words) -> String {
    let words: Vec<String> = words.iter().map(u16::to_string).collect();
    format!("raw {}", words.join(" "))
}

/// The words that a line begins with.
const WORDS: [&str; 6] = ["raw", "off", "start", "extend", "reduce", "a"];
/// What is said of a line that begins with none of them.
const NO_RECORD: &str = "a term (a, f7(a), ..) or a step (start, extend, reduce) is expected here";
/// What is said where no term stands.
const NO_TERM: &str = "a term (a, f7(a), #2, ..) is expected here";
/// The kind of the constant.
const CONSTANT: u8 = 1;
/// The kind of functions.
const FUNCTION: u8 = 2;

/// The bytes of a script's text, of whose header the first word is taken, and the line of each record. No term is made: a
/// term may have several records, and steps name the one that is meant.
pub fn read<'a>(
    header: Cursor<'a>,
    lines: impl Iterator<Item = Cursor<'a>>,
) -> Result<(Vec<u8>, Vec<Line>), Vec<Fault>> {
    let form = Form {
        header: |line| read_header(line).map_err(Unread::no_term),
        record: |line, said| read_record(line, said).map(|record| vec![record]),
        made: term_words,
        set_link: |[_, _, _, first, .., next]: &mut Words, number, link| match number {
            0 => *first = link,
            _ => *next = link,
        },
    };
    let (records, lines) = form.read(Said::new(Unsaid::NoLine), header, lines)?;
    Ok((records.iter().flat_map(bytes).collect(), lines))
}

fn read_header(line: &mut Cursor) -> Result<Linked<Words>, Fault> {
    let expected = "a term of the vocabulary, as #4, is expected here";
    let (record, link) = if line.peek() == Some('#') {
        let a = line.lettered('#', expected)?;
        line.expect("within")?;
        let b = line.lettered('#', "a term of the vocabulary, as #3, is expected here")?;
        ([HEADER_WORD, a, b, 0, 0, 0, 0, 0], read_link(line, "first")?)
    } else {
        line.choose(&["raw"], expected)?;
        let record = read_raw(line)?;
        let [_, _, _, first, ..] = record;
        (record, Some(first))
    };
    Ok(Linked {
        link,
        ..Linked::unchained(record, Says::Nothing)
    })
}

/// A record by its words; the word `raw` is taken.
fn read_raw(line: &mut Cursor) -> Result<Words, Fault> {
    let place = line.here();
    let words = Words::try_from(line.numbers(8)?);
    words.map_err(|_| line.fault_at(place, "eight numbers are expected here"))
}

/// A record; `said` is what the lines before it say.
fn read_record(line: &mut Cursor, said: &mut Said) -> Result<Linked<Words>, Unread> {
    if line.is_lettered('f') {
        return read_whole_function(line, said);
    }
    match line.choose(&WORDS, NO_RECORD)? {
        "raw" => {
            let record = read_raw(line)?;
            Ok(Linked::unchained(record, raw_says(record, said)))
        }
        "a" => Ok(term_record(Term::new(CONSTANT, 0, 0), said)),
        "off" => {
            let steps = ["start", "extend", "reduce"];
            let word = line.choose(&steps, "a step is expected here: start, extend or reduce")?;
            read_step(line, said, word, false).map_err(Unread::no_term)
        }
        word => read_step(line, said, word, true).map_err(Unread::no_term),
    }
}

/// A function as a line of its own.
fn read_whole_function(line: &mut Cursor, said: &mut Said) -> Result<Linked<Words>, Unread> {
    let says = Says::Term(Term::of_kind(FUNCTION));
    let term = read_function(line, said, 1).map_err(|fault| Unread { fault, says })?;
    Ok(term_record(term, said))
}

/// The record of a term.
fn term_record(term: Term, said: &Said) -> Linked<Words> {
    Linked::unchained(term_words(term), Says::Term(of_first(term, said)))
}

fn term_words(term: Term) -> Words {
    let (a, b) = term.numbers();
    [term.kind.into(), a, b, 0, 0, 0, 0, 0]
}

/// What a record says that is given by its words.
fn raw_says(words: Words, said: &Said) -> Says {
    match words {
        [kind, a, b, 0, 0, 0, 0, 0] => {
            u8::try_from(kind).map_or(Says::Nothing, |kind| Says::Term(of_first(Term::new(kind, a, b), said)))
        }
        _ => Says::Nothing,
    }
}

/// A term with its inner term named by the first record that says it, so that one term is one value. An inner term that a
/// faulty line leaves open is left open here, too.
fn of_first(term: Term, said: &Said) -> Term {
    Term {
        b: term.b.and_then(|inner| said.first(inner)),
        ..term
    }
}

/// A step; its word is taken.
fn read_step(line: &mut Cursor, said: &mut Said, word: &str, on: bool) -> Result<Linked<Words>, Fault> {
    let entry = match word {
        "start" => Entry::Start(line.number()?),
        "reduce" => Entry::Reduce(line.number()?),
        _ => Entry::Extend(read_extension(line, said)?),
    };
    let link = read_link(line, "next")?;
    Ok(Linked {
        record: entry.words(link.unwrap_or(0)),
        on,
        link,
        says: Says::Nothing,
    })
}

/// An extension; its word is taken.
fn read_extension(line: &mut Cursor, said: &mut Said) -> Result<Extension, Fault> {
    line.expect("owner")?;
    let owner = line.number()?;
    line.expect("column")?;
    let column = line.number()?;
    line.expect("x")?;
    let x = term(line, said, 1)?;
    let mut y = Some(0);
    if line.choose(&["y", "at"], "'y' or 'at' is expected here")? == "y" {
        y = term(line, said, 1)?;
        line.expect("at")?;
    }
    Ok(Extension {
        owner,
        column,
        x: x.unwrap_or(0),
        y: y.unwrap_or(0),
        position: line.number()?,
    })
}

/// The function that stands here, at this nesting.
fn read_function(line: &mut Cursor, said: &mut Said, nesting: usize) -> Result<Term, Fault> {
    let function = line.lettered('f', NO_TERM)?;
    line.symbol('(')?;
    let inner = term(line, said, nesting + 1)?;
    line.symbol(')')?;
    Ok(Term {
        kind: FUNCTION,
        a: Some(function),
        b: inner,
    })
}

/// The record of a term: `#2`, or the first that says a term, written out.
fn term(line: &mut Cursor, said: &mut Said, nesting: usize) -> Result<Option<u16>, Fault> {
    said.reference(line, nesting, "#2", |line, said| {
        if line.is_lettered('f') {
            return Ok(of_first(read_function(line, said, nesting)?, said));
        }
        line.choose(&["a"], NO_TERM)?;
        Ok(Term::new(CONSTANT, 0, 0))
    })
}
