//! What is added to a vocabulary, by the words of a command line. Each operand is a record's number, or stands as texts
//! have it; so may the whole record.

#[cfg(test)]
mod tests;

use super::axioms::{read_axiom, AXIOMS, WITHIN};
use super::cursor::{Cursor, Fault};
use super::names::{Names, Sort};
use super::quotes::split_comment;
use super::said::{Said, Unsaid};
use super::terms::{operand, read_label, read_role, read_term, read_word, said_by, shape, Begun, NO_TERM};
use base::arguments::digits;
use base::vocabulary::Vocabulary;
use base::Failure;

/// A record that is to be added.
#[derive(Clone, Copy, Debug, PartialEq, Eq)]
pub enum Addition {
    /// A term, by its kind, A and B.
    Term(u8, u16, u16),
    /// A statement, by its A and B.
    Statement(u16, u16),
}

/// Why words say no addition.
#[derive(Debug)]
pub enum Unfit {
    /// There are too few of them, or too many, or one is misplaced.
    Words(Failure),
    /// Some cannot be read as texts: each with what is wrong in it. There is at least one.
    Faults(Vec<(String, Fault)>),
}

impl From<Failure> for Unfit {
    fn from(failure: Failure) -> Unfit {
        Unfit::Words(failure)
    }
}

/// The term that words say: a kind, by its number or its word, and its operands; or the whole text of a term.
pub fn term(vocabulary: &Vocabulary, names: &Names, words: &[&str]) -> Result<Addition, Unfit> {
    let mut reader = Reader::new(vocabulary, names);
    let addition = match words {
        [] => return Err(missing("KIND").into()),
        [kind, operands @ ..] if digits(kind).is_some() => reader.term_by_fields(kind, operands)?,
        [text] => reader.whole_term(text),
        [kind, operands @ ..] => reader.term_by_word(kind, operands)?,
    };
    reader.finish(addition)
}

/// The statement that words say: A and B, or the whole text of a statement.
pub fn statement(vocabulary: &Vocabulary, names: &Names, words: &[&str]) -> Result<Addition, Unfit> {
    let mut reader = Reader::new(vocabulary, names);
    let addition = match words {
        [text] if Cursor::new(1, text).expect(WITHIN).is_ok() => reader.whole_statement(text),
        [a, b] => {
            let term = Some(Field::Term { nesting: 1 });
            Addition::Statement(reader.field(a, term), reader.field(b, term))
        }
        [_, _, extra, ..] => return Err(too_many(extra).into()),
        [text] if begins_as_axiom(text) => return Err(Failure::usage(NOT_ONE).into()),
        [_] => return Err(missing("B").into()),
        [] => return Err(missing("A").into()),
    };
    reader.finish(addition)
}

/// What is said of an axiom that is no SubClassOf(..).
const NOT_ONE: &str =
    "one statement is added, as SubClassOf(..); other axioms stand for some, which are added one by one";

/// Whether a text begins with the word of an axiom.
fn begins_as_axiom(text: &str) -> bool {
    let line = Cursor::new(1, text);
    AXIOMS.iter().any(|word| line.clone().keyword(word))
}

/// What a field of a term's record holds.
#[derive(Clone, Copy)]
enum Field {
    /// The label of a name.
    Label,
    /// A role.
    Role,
    /// The record of a term, which stands so deep.
    Term { nesting: usize },
}

/// What the fields of a kind hold, of which there are at most two: A and B.
fn fields_of(kind: u8) -> &'static [Field] {
    const TERM: Field = Field::Term { nesting: 2 };
    match kind {
        3 => &[Field::Label],
        4 => &[TERM],
        5 | 6 => &[TERM, TERM],
        7 | 8 => &[Field::Role, TERM],
        _ => &[],
    }
}

/// Reads words, and keeps what is wrong with them.
struct Reader<'a> {
    said: Said,
    /// What names and roles are called.
    names: &'a Names,
    faults: Vec<(String, Fault)>,
}

impl Reader<'_> {
    /// A reader of words that name records of a vocabulary.
    fn new<'a>(vocabulary: &Vocabulary, names: &'a Names) -> Reader<'a> {
        Reader {
            said: said_by(vocabulary, Unsaid::NoRecord),
            names,
            faults: Vec::new(),
        }
    }

    /// The addition, unless some word was wrong.
    fn finish(self, addition: Addition) -> Result<Addition, Unfit> {
        match self.faults.is_empty() {
            true => Ok(addition),
            false => Err(Unfit::Faults(self.faults)),
        }
    }

    /// What a word says, all of which has to be read. What is wrong with it is kept.
    fn read<T: Default>(&mut self, text: &str, read: impl FnOnce(&mut Cursor, &mut Said) -> Result<T, Fault>) -> T {
        let mut line = Cursor::new(1, text).with_names(self.names);
        let value = read(&mut line, &mut self.said).and_then(|value| line.end().map(|()| value));
        let value = value.unwrap_or_else(|fault| {
            line.stop(fault);
            T::default()
        });
        let faults = line.into_faults().into_iter().chain(comment(text));
        self.faults.extend(faults.map(|fault| (text.to_string(), fault)));
        value
    }

    /// A field, by its number, by what it is called, or as texts have it. One that the kind does not use has only a number.
    fn field(&mut self, word: &str, holds: Option<Field>) -> u16 {
        let text = match holds {
            Some(Field::Role) => self.names.text_of(Sort::Role, word),
            Some(_) => self.names.text_of(Sort::Name, word),
            None => None,
        };
        self.read(text.as_deref().unwrap_or(word), |line, said| match holds {
            _ if line.peek().is_some_and(|first| first.is_ascii_digit()) => line.number(),
            Some(Field::Label) => read_label(line),
            Some(Field::Role) => read_role(line),
            Some(Field::Term { nesting }) => operand(line, said, nesting).map(Option::unwrap_or_default),
            None => line.number(),
        })
    }

    /// A term by the number of its kind. What the fields hold, be it too much for the kind, is the library's to refuse.
    fn term_by_fields(&mut self, kind: &str, operands: &[&str]) -> Result<Addition, Failure> {
        let number = digits(kind).and_then(|number| u8::try_from(number).ok());
        let number = number.ok_or_else(|| {
            Failure::usage(format!(
                "KIND is a number from 1 to 8 or a word of texts, and '{kind}' is none"
            ))
        })?;
        self.fields(number, operands, 2)
    }

    /// A term by the word of its kind, which has its operands and no others.
    fn term_by_word(&mut self, word: &str, operands: &[&str]) -> Result<Addition, Failure> {
        // A name is whole by itself.
        if let ([extra, ..], true) = (operands, Cursor::new(1, word).is_lettered('c')) {
            return Err(too_many(extra));
        }
        let word = self.read(word, |line, _| read_word(line, &[], NO_TERM));
        if word.is_empty() {
            return Ok(Addition::Term(0, 0, 0));
        }
        let (kind, _) = shape(word);
        self.fields(kind, operands, fields_of(kind).len())
    }

    /// A term of a kind by its operands, of which there may be so many.
    fn fields(&mut self, kind: u8, operands: &[&str], most: usize) -> Result<Addition, Failure> {
        let holds = fields_of(kind);
        if let Some(name) = ["A", "B"].get(operands.len()).filter(|_| operands.len() < holds.len()) {
            return Err(missing(name));
        }
        if let Some(extra) = operands.get(most) {
            return Err(too_many(extra));
        }
        let mut fields = [0; 2];
        for (place, (field, text)) in fields.iter_mut().zip(operands).enumerate() {
            *field = self.field(text, holds.get(place).copied());
        }
        let [a, b] = fields;
        Ok(Addition::Term(kind, a, b))
    }

    /// A term by its whole text.
    fn whole_term(&mut self, text: &str) -> Addition {
        let name = self.names.text_of(Sort::Name, text);
        let (kind, (a, b)) = self.read(name.as_deref().unwrap_or(text), |line, said| {
            let place = line.here();
            let shape = shape(read_word(line, &[], NO_TERM)?);
            let begun = Begun {
                place,
                nesting: 1,
                shape,
            };
            let term = read_term(line, said, begun)?;
            Ok((term.kind, term.numbers()))
        });
        Addition::Term(kind, a, b)
    }

    /// A statement by its whole text.
    fn whole_statement(&mut self, text: &str) -> Addition {
        let statements = self.read(text, |line, said| {
            line.expect(WITHIN)?;
            read_axiom(line, said, WITHIN)
        });
        let (a, b) = statements.first().copied().unwrap_or_default();
        Addition::Statement(a.unwrap_or(0), b.unwrap_or(0))
    }
}

/// That a text has a comment, which would be lost.
pub fn comment(text: &str) -> Option<Fault> {
    let (before, comment) = split_comment(text);
    comment?;
    let column = before.chars().count() + 1;
    Some(Fault::at(1, column, "no comment is expected here"))
}

fn missing(name: &str) -> Failure {
    Failure::usage(format!("{name} is missing"))
}

fn too_many(word: &str) -> Failure {
    Failure::usage(format!("{word} is one word too many"))
}
