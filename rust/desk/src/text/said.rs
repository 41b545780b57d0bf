//! What the lines of a text say, or the records of a vocabulary, so that others can refer to it.

use super::cursor::{Cursor, Fault};
use crate::display::did_you_mean;
use std::collections::{HashMap, HashSet};

/// The deepest nesting of a term that is written out.
const NESTING: usize = 16;
/// The kind of names.
const NAME: u8 = 3;
/// The most names that a message lists.
const LISTED: usize = 8;

/// A term as a line says it: a kind with two numbers. Those that a faulty line leaves open are missing.
#[derive(Clone, Copy, Debug, PartialEq, Eq, Hash)]
pub struct Term {
    /// The kind of the record.
    pub kind: u8,
    /// The first number, 0 where the kind has none.
    pub a: Option<u16>,
    /// The second number, 0 where the kind has none.
    pub b: Option<u16>,
}

impl Term {
    /// A term of which everything is known.
    pub fn new(kind: u8, a: u16, b: u16) -> Term {
        Term {
            kind,
            a: Some(a),
            b: Some(b),
        }
    }

    /// A term of which only the kind is known.
    pub fn of_kind(kind: u8) -> Term {
        Term { kind, a: None, b: None }
    }

    /// The numbers, 0 for one that is missing.
    pub fn numbers(self) -> (u16, u16) {
        (self.a.unwrap_or(0), self.b.unwrap_or(0))
    }

    /// The label of a name.
    pub fn label(self) -> Option<u16> {
        self.a.filter(|_| self.kind == NAME)
    }

    fn is_known(self) -> bool {
        self.a.is_some() && self.b.is_some()
    }
}

/// What a line says that later ones may refer to.
#[derive(Clone, Copy, Debug)]
pub enum Says {
    /// No term.
    Nothing,
    /// This term.
    Term(Term),
    /// Perhaps some term: the line cannot be read.
    Anything,
}

/// What is done about a term that nothing says.
#[derive(Clone, Copy, Debug, Default, PartialEq, Eq)]
pub enum Unsaid {
    /// It is a fault of a line, before which another has to say it.
    #[default]
    NoLine,
    /// It is a fault of what is to be added to records, of which one has to say it.
    NoRecord,
    /// It is a fault of what is asked about records, of which one has to say it.
    NotFound,
    /// It is made.
    Made,
    /// It is made, but for names: a name that is not there is a fault.
    MadeOfNames,
}

/// What is known to be said.
#[derive(Default)]
pub struct Said {
    first: HashMap<Term, u16>,
    /// The first record that says the term of one that repeats it.
    repeats: HashMap<u16, u16>,
    perhaps: HashSet<Term>,
    /// The records of terms that faulty lines leave open.
    open: HashSet<u16>,
    anything: bool,
    unsaid: Unsaid,
    /// The terms that were made since the records of the last line.
    made: Vec<Term>,
    /// The number that the next record gets that is made.
    next: usize,
    /// How many records there are that can be named by their numbers, where that is known.
    records: Option<usize>,
    /// Whether it was left open what a line refers to, or whether it makes it.
    is_unsure: bool,
}

impl Said {
    /// What is said by nothing yet.
    pub fn new(unsaid: Unsaid) -> Said {
        Said {
            unsaid,
            ..Said::default()
        }
    }

    /// What is said of so many records, of which none is added yet.
    pub fn of_records(unsaid: Unsaid, records: usize) -> Said {
        Said {
            next: records,
            // What is added may name what is not there: that is the library's to refuse.
            records: Some(records).filter(|_| unsaid != Unsaid::NoRecord),
            ..Said::new(unsaid)
        }
    }

    /// Begins a line before which there are so many records.
    pub fn begin(&mut self, records: usize) {
        self.next = records;
        self.is_unsure = false;
    }

    /// The terms that were made, which get the next records.
    pub fn take_made(&mut self) -> Vec<Term> {
        std::mem::take(&mut self.made)
    }

    /// Whether terms are made that nothing says.
    pub fn makes(&self) -> bool {
        matches!(self.unsaid, Unsaid::Made | Unsaid::MadeOfNames)
    }

    /// Whether the line may refer to a term that a faulty line says, or make it.
    pub fn is_unsure(&self) -> bool {
        self.is_unsure
    }

    /// Adds what a record says.
    pub fn add(&mut self, number: u16, says: Says) {
        match says {
            Says::Nothing => (),
            Says::Term(term) if term.is_known() => {
                let first = *self.first.entry(term).or_insert(number);
                if first != number {
                    self.repeats.insert(number, first);
                }
            }
            Says::Term(term) => {
                self.perhaps.insert(term);
                self.open.insert(number);
            }
            Says::Anything => self.anything = true,
        }
    }

    /// The first record that says what this one says, as far as lines have been read. None is known where a faulty line
    /// leaves open what this one says: it may be what any other says.
    pub fn first(&self, number: u16) -> Option<u16> {
        let first = self.repeats.get(&number).copied().unwrap_or(number);
        Some(first).filter(|_| !self.open.contains(&number))
    }

    /// Whether a faulty line may have said a term.
    fn may_say(&self, term: Term) -> bool {
        let open = [
            Term { a: None, ..term },
            Term { b: None, ..term },
            Term::of_kind(term.kind),
        ];
        self.anything || !term.is_known() || open.iter().any(|term| self.perhaps.contains(term))
    }

    /// The record that a line refers to: by its number, as `example`, or by a term, which `read` takes. None is known where
    /// nothing says the term and it is not made, which is noted, unless a faulty line may have said it.
    pub fn reference(
        &mut self,
        line: &mut Cursor,
        nesting: usize,
        example: &str,
        read: impl Fn(&mut Cursor, &mut Said) -> Result<Term, Fault>,
    ) -> Result<Option<u16>, Fault> {
        if line.peek() == Some('#') {
            return self.numbered(line, example).map(Some);
        }
        if nesting > NESTING {
            let message = format!("terms are nested too deep here; name one by its record, as {example}");
            return Err(line.fault(&message));
        }
        let place = line.here();
        let term = read(line, self)?;
        Ok(self.record_of(term, |said| line.note(place, &said.missing_term(term, example))))
    }

    /// The record that a line names by its number.
    fn numbered(&self, line: &mut Cursor, example: &str) -> Result<u16, Fault> {
        let place = line.here();
        let number = line.lettered('#', &format!("a record, as {example}, is expected here"))?;
        match self.records.filter(|records| usize::from(number) >= *records) {
            None => Ok(number),
            Some(records) => {
                let last = records.saturating_sub(1);
                let message = format!("there is no record {number}; the vocabulary ends at record {last}");
                Err(line.fault_at(place, &message))
            }
        }
    }

    /// The record of a term: the first that says it, or one that is made. If there is none, that is to be told, unless a faulty
    /// line may have said it.
    pub fn record_of(&mut self, term: Term, tell: impl FnOnce(&Said)) -> Option<u16> {
        if let Some(number) = self.first.get(&term) {
            return Some(*number);
        }
        if self.may_say(term) {
            self.is_unsure = true;
            return None;
        }
        let is_made = self.makes() && (self.unsaid == Unsaid::Made || term.kind != NAME);
        if !is_made {
            tell(self);
            return None;
        }
        self.make(term)
    }

    /// Makes a term: the number that its record gets. There is none after the last number.
    fn make(&mut self, term: Term) -> Option<u16> {
        self.made.push(term);
        let number = u16::try_from(self.next).ok();
        self.next += 1;
        if let Some(number) = number {
            self.add(number, Says::Term(term));
        }
        number
    }

    /// What is said of a term that nothing says.
    fn missing_term(&self, term: Term, example: &str) -> String {
        match (self.unsaid, term.label()) {
            (Unsaid::MadeOfNames | Unsaid::NotFound, Some(label)) => self.missing_name(label),
            (Unsaid::NotFound, _) => self.missing("this term"),
            _ => format!("{}, or name a record, as {example}", self.missing("this term")),
        }
    }

    /// What is said of something that nothing says.
    pub fn missing(&self, what: &str) -> String {
        match self.unsaid {
            Unsaid::NoLine => format!("no earlier line says {what}; give it a line of its own before"),
            Unsaid::NoRecord => format!("no record says {what}; add it first"),
            _ => format!("no record says {what}"),
        }
    }

    /// What is said of a name that records do not have.
    fn missing_name(&self, label: u16) -> String {
        let mut labels: Vec<u16> = self.first.keys().filter_map(|term| term.label()).collect();
        labels.sort_unstable();
        let name = format!("c{label}");
        let names: Vec<String> = labels.iter().map(|label| format!("c{label}")).collect();
        let has = match names.len() {
            0 => "; it has no names".to_string(),
            1..=LISTED => format!("; it has {}", names.join(", ")),
            _ => did_you_mean(&name, names.iter().map(String::as_str)),
        };
        format!("the vocabulary has no name {name}{has}")
    }
}
