//! Vocabularies as text, in OWL 2 functional syntax where a record has a form there.

use super::manchester::Reading;
use super::names::Names;
use super::quotes;
use super::{find, link_words, linked_line, whole, FIRST, WRITTEN_OUT};
use crate::display::plain;
use crate::json::Json;
use base::chain::default_link;
use base::vocabulary::{Record, Saying, Vocabulary, STATEMENT_KIND};
use judge::{Edition, Refusal, Rule};

/// A vocabulary with the text of each record as an operand.
pub struct Written {
    vocabulary: Vocabulary,
    chained: Vec<bool>,
    operands: Vec<String>,
    /// What people call each record, as far as it is known.
    words: Vec<String>,
    /// How many records were given; those after them were added for a question.
    given: usize,
    /// What people call its names and roles.
    names: Names,
    /// Each record as an operand by what its parts are called; nothing for one that is not written out.
    readings: Vec<Option<Reading>>,
}

impl Written {
    /// Writes out the terms of a vocabulary, whether it is accepted or not.
    pub fn new(vocabulary: Vocabulary) -> Written {
        let mut written = Written {
            chained: vocabulary.chained(),
            given: vocabulary.records.len(),
            vocabulary,
            operands: Vec::new(),
            words: Vec::new(),
            names: Names::default(),
            readings: Vec::new(),
        };
        for number in 0..written.vocabulary.records.len() {
            let text = written.operand_text(number).unwrap_or_else(|| format!("#{number}"));
            written.operands.push(text);
        }
        written
    }

    /// The same with what people call each record.
    pub fn with_words(self, words: Vec<String>) -> Written {
        Written { words, ..self }
    }

    /// The same with what people call its names and roles.
    pub fn with_names(self, names: Names) -> Written {
        if names.is_empty() {
            return self;
        }
        let mut written = Written {
            names,
            readings: Vec::new(),
            ..self
        };
        for number in 0..written.operands.len() {
            // What is not written out by its labels is not by its names, so that both have the same parts.
            let reading = written.reading(number).filter(|_| written.is_written_out(number));
            written.readings.push(reading);
        }
        written
    }

    /// What people call its names and roles.
    pub fn names(&self) -> &Names {
        &self.names
    }

    /// The same where only so many bytes were given, and the records after them were added for a question.
    pub fn of_given(self, bytes: &[u8]) -> Written {
        let given = bytes.len() / judge::RECORD_BYTES;
        Written { given, ..self }
    }

    /// The records that were added for a question.
    pub fn added(&self) -> impl Iterator<Item = u16> {
        (self.given..self.vocabulary.records.len()).map(|number| number as u16)
    }

    /// The vocabulary.
    pub fn vocabulary(&self) -> &Vocabulary {
        &self.vocabulary
    }

    /// The text of a term as an operand: written out where it is short and no earlier record says the same.
    fn operand_text(&self, number: usize) -> Option<String> {
        let record = self.vocabulary.get(number);
        if !record.is_term() || find(&self.vocabulary.records, &record) != Some(number) {
            return None;
        }
        self.expression(number).filter(|text| text.len() <= WRITTEN_OUT)
    }

    /// Whether a term is written out as an operand, and not named by its number.
    pub fn is_written_out(&self, number: usize) -> bool {
        self.operands.get(number).is_some_and(|text| !text.starts_with('#'))
    }

    /// Whether people call some record, or some name or role, something.
    pub fn has_words(&self) -> bool {
        !self.names.is_empty() || self.words.iter().skip(1).any(|words| !words.is_empty())
    }

    /// What people call a record.
    pub fn words(&self, number: u16) -> Option<&str> {
        let words = self.words.get(usize::from(number)).map(String::as_str);
        words.filter(|words| !words.is_empty())
    }

    /// What a record says, and what people call it: by its names first, if it has some.
    pub fn called(&self, number: u16) -> String {
        let text = self.both(number);
        match self.words(number) {
            Some(words) => format!("{text} ({})", plain(words)),
            None => text,
        }
    }

    /// What a record says: by its names, if it has some, and in OWL 2 functional syntax.
    pub fn both(&self, number: u16) -> String {
        let text = self.expression(usize::from(number)).unwrap_or_default();
        self.beside_name(number, text)
    }

    /// The line of a record after what it says by its names, if it has some.
    pub fn called_line(&self, number: u16) -> String {
        self.beside_name(number, self.line(usize::from(number)))
    }

    fn beside_name(&self, number: u16, text: String) -> String {
        match self.named(usize::from(number)) {
            Some(named) => format!("{named} ({text})"),
            None => text,
        }
    }

    /// A role, and what people call it.
    pub fn role(&self, role: u16) -> String {
        match self.names.role(role) {
            Some(called) => format!("{} (r{role})", quotes::write(called)),
            None => format!("r{role}"),
        }
    }

    /// A term with its number.
    pub fn term(&self, number: u16) -> String {
        let is_added = usize::from(number) >= self.given;
        let added = if is_added { " (added for this question)" } else { "" };
        format!("term {number}{added}, {}", self.called(number))
    }

    /// The same for programs.
    pub fn term_json(&self, number: u16) -> Json {
        Json::object(self.term_fields(number))
    }

    /// The fields of that.
    pub fn term_fields(&self, number: u16) -> Vec<(&'static str, Json)> {
        let mut fields = vec![("record", Json::from(number))];
        fields.extend(self.name_field(number));
        fields.extend([
            ("text", Json::from(self.expression(usize::from(number)))),
            ("words", Json::from(self.words(number))),
        ]);
        fields
    }

    /// What a record says by its names, for programs: of a name, what it is called. Where nothing is called anything there
    /// is no such field.
    pub fn name_field(&self, number: u16) -> Option<(&'static str, Json)> {
        let number = usize::from(number);
        let name = match self.saying(number) {
            Some(Saying::Name(label)) => self.names.term(label).map(str::to_string),
            _ => self.named(number),
        };
        (!self.names.is_empty()).then(|| ("name", Json::from(name)))
    }

    /// What a record says, in OWL 2 functional syntax; nothing for a record that has no form.
    pub fn expression(&self, number: usize) -> Option<String> {
        let saying = self.saying(number)?;
        Some(spelt(saying, |operand| self.operand(number, operand)))
    }

    /// The same in Manchester syntax, by what names and roles are called, where one of them is called something.
    fn named(&self, number: usize) -> Option<String> {
        let reading = self.reading(number).filter(|reading| reading.is_named);
        reading.map(|reading| reading.text)
    }

    fn reading(&self, number: usize) -> Option<Reading> {
        let saying = self.saying(number)?;
        if let Saying::Name(label) = saying {
            let called = self.names.term(label);
            return Some(called.map_or_else(|| Reading::one(format!("c{label}"), false), name));
        }
        let operand = |operand: u16| {
            let before = self.readings.get(usize::from(operand)).cloned().flatten();
            let before = before.filter(|_| usize::from(operand) < number);
            before.unwrap_or_else(|| Reading::one(format!("#{operand}"), false))
        };
        let role = match saying {
            Saying::Some(role, _) | Saying::All(role, _) => {
                let called = self.names.role(role);
                called.map_or_else(|| Reading::one(format!("r{role}"), false), name)
            }
            _ => Reading::one("", false),
        };
        Some(Reading::of(saying, role, operand))
    }

    /// What a record says, unless it is the header or has no form.
    fn saying(&self, number: usize) -> Option<Saying> {
        self.vocabulary.get(number).saying().filter(|_| number > 0)
    }

    /// The text of an operand of a record. Those of a record that is refused may not come before it.
    fn operand(&self, number: usize, operand: u16) -> String {
        match self.operands.get(usize::from(operand)) {
            Some(text) if usize::from(operand) < number => text.clone(),
            _ => format!("#{operand}"),
        }
    }

    /// The line of the header. One that is not as its edition asks, as with a wrong number of atoms, has no form.
    pub fn header(&self) -> String {
        let header = self.vocabulary.get(0);
        let (first, roles) = (header.a, header.b);
        let wanted = |edition| with_atoms(Record::header(edition, roles), &self.vocabulary);
        match Edition::of(header.second) {
            Some(edition) if (Record { a: 0, ..header }) == wanted(edition) => {
                let first = link_words(FIRST, first, default_link(&self.chained, 0));
                format!("vocabulary roles {roles} edition {}{first}", edition.number())
            }
            _ => format!("vocabulary {}", raw(header)),
        }
    }

    /// A record's line, without its number.
    pub fn line(&self, number: usize) -> String {
        let record = self.vocabulary.get(number);
        let Some(text) = self.expression(number) else {
            return raw(record);
        };
        if record.kind != STATEMENT_KIND {
            return text;
        }
        linked_line(&text, &self.chained, number, record.next)
    }

    /// The whole text. What names and roles are called stands after the header.
    pub fn text(&self) -> String {
        let header = format!("{}\n{}", self.header(), self.names.lines());
        whole(header.trim_end(), self.vocabulary.records.len(), |number| {
            self.line(number)
        })
    }
}

/// What a record says in OWL 2 functional syntax, by the texts of its operands.
fn spelt(saying: Saying, operand: impl Fn(u16) -> String) -> String {
    let two = |word: &str, first: String, second: String| format!("{word}({first} {second})");
    match saying {
        Saying::Top => "owl:Thing".to_string(),
        Saying::Bottom => "owl:Nothing".to_string(),
        Saying::Name(label) => format!("c{label}"),
        Saying::Not(a) => format!("ObjectComplementOf({})", operand(a)),
        Saying::And(a, b) => two("ObjectIntersectionOf", operand(a), operand(b)),
        Saying::Or(a, b) => two("ObjectUnionOf", operand(a), operand(b)),
        Saying::Some(r, b) => two("ObjectSomeValuesFrom", format!("r{r}"), operand(b)),
        Saying::All(r, b) => two("ObjectAllValuesFrom", format!("r{r}"), operand(b)),
        Saying::Within(a, b) => two("SubClassOf", operand(a), operand(b)),
    }
}

/// What a name or a role is called.
fn name(called: &str) -> Reading {
    Reading::one(quotes::write(called), true)
}

/// A header with the number of the vocabulary's atoms, if it is of edition 2, which holds it.
pub fn with_atoms(header: Record, vocabulary: &Vocabulary) -> Record {
    let next = match Edition::of(header.second) {
        Some(Edition::Two) => atoms(vocabulary),
        _ => header.next,
    };
    Record { next, ..header }
}

/// The number of atoms of a vocabulary of edition 2, as the library says it, be it by refusing what the header holds. Of one
/// that it refuses otherwise it says none: there all records of an atom's kind count.
fn atoms(vocabulary: &Vocabulary) -> u16 {
    match judge::atoms(&vocabulary.bytes()) {
        Ok(atoms) => atoms,
        Err(Refusal {
            rule: Rule::AtomCount,
            place,
        }) => place as u16,
        Err(_) => vocabulary.atoms().len() as u16,
    }
}

/// A record by its fields.
fn raw(record: Record) -> String {
    format!(
        "raw {} {} {} {} {}",
        record.kind, record.second, record.a, record.b, record.next
    )
}
