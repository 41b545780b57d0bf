//! Refusals: the table of docs/FORMATS.md, section 6.

use std::fmt;

/// A refusal: the rule that applies, first in the table's order, and the place where it does.
#[derive(Clone, Copy, Debug, PartialEq, Eq)]
pub struct Refusal {
    /// The rule.
    pub rule: Rule,
    /// The place, as [`Rule::place`] says.
    pub place: u32,
}

/// What the place of a refusal is.
#[derive(Clone, Copy, Debug, PartialEq, Eq)]
pub enum Place {
    /// The input as a whole; the number is 0.
    Whole,
    /// A record of the vocabulary; of one that is added, the number that it would get, which is how many there are.
    Record,
    /// The number that was asked for.
    Asked,
    /// The number of atoms, as it is and not as a header has it.
    Atoms,
    /// A record of the script.
    ScriptRecord,
}

/// The rules of the table, by their numbers.
#[derive(Clone, Copy, Debug, PartialEq, Eq)]
#[non_exhaustive]
pub enum Rule {
    /// 1
    VocabularyLength,
    /// 2
    Header,
    /// 3
    Kind,
    /// 4
    UnusedField,
    /// 5
    TermNumber,
    /// 6
    Role,
    /// 7
    Label,
    /// 8
    Link,
    /// 9
    RecordNumber,
    /// 10
    Query,
    /// 11
    Atoms,
    /// 12
    Lent,
    /// 13
    ScriptLength,
    /// 14
    ScriptHeader,
    /// 15
    ScriptKind,
    /// 16
    UnusedWord,
    /// 17
    Term,
    /// 18
    Step,
    /// 19
    StepLink,
    /// 20
    Start,
    /// 21
    Extension,
    /// 22
    Reduction,
    /// 23
    Frames,
    /// 24
    Open,
    /// 25
    AllClosed,
    /// 26
    TaxonomyLent,
    /// 27
    Room,
    /// 28
    AtomCount,
    /// A number that the table does not have.
    Unlisted(u8),
}

use Place::{Asked, Record, ScriptRecord, Whole};

/// A row of the table.
struct Row {
    rule: Rule,
    place: Place,
    condition: &'static str,
    words: &'static str,
}

const fn row(rule: Rule, place: Place, condition: &'static str, words: &'static str) -> Row {
    Row {
        rule,
        place,
        condition,
        words,
    }
}

/// The table, in the order of the numbers: the condition, in the words of docs/FORMATS.md, and a sentence, which
/// include/judge.h has too.
#[rustfmt::skip]
const TABLE: [Row; 28] = [
    row(Rule::VocabularyLength, Whole, "under 8, over 4,096 or no multiple of 8",
        "the vocabulary's length is under 8, over 4,096 or no multiple of 8"),
    row(Rule::Header, Whole, "kind, second byte, role count or next",
        "the vocabulary's header has a wrong kind, second byte, role count or next"),
    row(Rule::Kind, Record, "kind not 1 to 9, or second byte",
        "the record's kind is not 1 to 9, or its second byte is not 0"),
    row(Rule::UnusedField, Record, "unused field not zero",
        "an unused field of the record is not zero"),
    row(Rule::TermNumber, Record, "term number",
        "a term number of the record does not name an earlier term"),
    row(Rule::Role, Record, "role not below the count",
        "the record's role is not below the header's count"),
    row(Rule::Label, Record, "label of an earlier name",
        "the name has the label of an earlier name"),
    row(Rule::Link, Record, "not 0 and not a later statement",
        "the first statement, or a statement's next, is not 0 and not a later statement"),
    row(Rule::RecordNumber, Asked, "number past the end",
        "the record number is past the end"),
    row(Rule::Query, Asked, "no term record",
        "the number asked about is no term record"),
    row(Rule::Atoms, Place::Atoms, "k over 12",
        "the vocabulary has over 12 atoms, too many to compare or to classify"),
    row(Rule::Lent, Whole, "under 512 bytes lent",
        "under 512 bytes are lent for the survivors"),
    row(Rule::ScriptLength, Whole, "under 16, over 32,768 or no multiple of 16",
        "the script's length is under 16, over 32,768 or no multiple of 16"),
    row(Rule::ScriptHeader, Whole, "w0, or w4 to w7",
        "the script's header has a wrong w0, or w4 to w7 are not zero"),
    row(Rule::ScriptKind, ScriptRecord, "kind not 1 to 5",
        "the script record's kind is not 1 to 5"),
    row(Rule::UnusedWord, ScriptRecord, "unused word not zero",
        "an unused word of the script record is not zero"),
    row(Rule::Term, ScriptRecord, "term rule; record 1 absent or not the constant",
        "the term record breaks the term rule, or record 1 is absent or not the constant"),
    row(Rule::Step, ScriptRecord, "start's w1 over 1; extension's owner, column or position not one that exists, w3 or a \
         needed w4 not an earlier term record, w3 not 1 for owner 0, w4 not 0 without y, or a \
         statement off the chain",
        "the step names a query column, owner, column, position or term that does not exist for it"),
    row(Rule::StepLink, ScriptRecord, "not 0 and not a later step",
        "the first step, or a step's next, is not 0 and not a later step"),
    row(Rule::Start, ScriptRecord, "no first start, or a later one",
        "the chain has no first start, or a later one"),
    row(Rule::Extension, ScriptRecord, "extension not complementary",
        "the extension's literal is not the complement of the goal"),
    row(Rule::Reduction, ScriptRecord, "reduction frame or complement",
        "the reduction's frame is not below the last, or its goal is not the complement"),
    row(Rule::Frames, ScriptRecord, "a 65th frame",
        "the extension would open a 65th frame"),
    row(Rule::Open, ScriptRecord, "a frame left",
        "the chain ends with a frame left"),
    row(Rule::AllClosed, ScriptRecord, "step after all is closed",
        "a step follows after all is closed"),
    row(Rule::TaxonomyLent, Whole, "under 144 bytes lent",
        "under 144 bytes are lent for the taxonomy"),
    row(Rule::Room, Record, "512 records, or under 8 bytes free",
        "the vocabulary has 512 records, or under 8 bytes of the buffer are free"),
    row(Rule::AtomCount, Place::Atoms, "edition 2 with a wrong k",
        "the vocabulary's header, of edition 2, has a wrong number of atoms"),
];

impl Rule {
    /// The rule of a number.
    pub fn of(number: u8) -> Rule {
        let row = usize::from(number).checked_sub(1).and_then(|row| TABLE.get(row));
        row.map_or(Rule::Unlisted(number), |row| row.rule)
    }

    /// Its row of the table, with its number.
    fn row(self) -> Option<(usize, &'static Row)> {
        (1..).zip(&TABLE).find(|(_, row)| row.rule == self)
    }

    /// Its number.
    pub fn number(self) -> u8 {
        match (self, self.row()) {
            (Rule::Unlisted(number), _) => number,
            (_, row) => row.map_or(0, |(number, _)| number as u8),
        }
    }

    /// What the place of its refusals is.
    pub fn place(self) -> Place {
        self.row().map_or(Whole, |(_, row)| row.place)
    }

    /// Its condition, in the table's own words.
    pub fn condition(self) -> &'static str {
        self.row().map_or("", |(_, row)| row.condition)
    }

    /// The same as a sentence without its full stop, for people who do not have the table.
    pub fn words(self) -> &'static str {
        self.row()
            .map_or("a refusal that the table does not have", |(_, row)| row.words)
    }

    /// Whether the vocabulary check gives it (1 to 8 and 28). Every call that takes a vocabulary tries these first, but for the
    /// record call, which tries 1 alone.
    pub fn is_of_vocabulary(self) -> bool {
        matches!(self.number(), 1..=8 | 28)
    }

    /// Whether the chain of a script that keeps the form decides it (20 to 25): the input is fit, and its chain is no
    /// derivation of at most 64 open frames. So what it claims is not shown; it may hold all the same.
    pub fn is_of_chain(self) -> bool {
        (20..=25).contains(&self.number())
    }
}

impl fmt::Display for Refusal {
    fn fmt(&self, out: &mut fmt::Formatter<'_>) -> fmt::Result {
        write!(out, "refused, {}", self.rule.number())?;
        match self.rule.place() {
            Place::Whole => Ok(()),
            Place::Record => write!(out, ", at record {}", self.place),
            Place::Asked => write!(out, ", number {}", self.place),
            Place::Atoms if self.place == 1 => write!(out, ", 1 atom"),
            Place::Atoms => write!(out, ", {} atoms", self.place),
            Place::ScriptRecord => write!(out, ", at script record {}", self.place),
        }?;
        write!(out, ": {}", self.rule.words())
    }
}

impl std::error::Error for Refusal {}
