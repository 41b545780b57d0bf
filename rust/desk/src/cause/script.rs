//! Refusals of a script before its chain is looked at, but for those of steps.

use super::{vocabulary, Reason};
use crate::script::{read, Entry, Words, HEADER_WORD};
use base::vocabulary::Vocabulary;

/// A script and its vocabulary.
pub struct Checked {
    pub(super) vocabulary: Vocabulary,
    /// Which statements of the vocabulary are on its chain.
    pub(super) chained: Vec<bool>,
    pub(super) script: Vec<Words>,
}

impl Checked {
    /// The records of both.
    pub fn new(vocabulary: &[u8], script: &[u8]) -> Checked {
        let vocabulary = Vocabulary::read(vocabulary);
        Checked {
            chained: vocabulary.chained(),
            vocabulary,
            script: read(script),
        }
    }

    /// A record of the script; where there is none, one of no kind.
    pub(super) fn get(&self, number: usize) -> Words {
        self.script.get(number).copied().unwrap_or_default()
    }

    fn kind_of(&self, number: usize) -> u16 {
        let [kind, ..] = self.get(number);
        kind
    }

    /// The kind of a record in words.
    fn kind_words(&self, number: usize) -> String {
        let words = match self.kind_of(number) {
            _ if number == 0 => "the header",
            1 => "the constant a",
            2 => "a function term",
            3 => "a start",
            4 => "an extension",
            5 => "a reduction",
            kind => return format!("of kind {kind}"),
        };
        words.to_string()
    }

    /// Where the script ends.
    fn end(&self) -> String {
        format!("the script ends at record {}", self.script.len().saturating_sub(1))
    }

    /// Why what the record `here` names is no earlier term record, if it is none.
    pub(super) fn no_term(&self, what: &str, number: u16, here: usize) -> Option<Reason> {
        let number = usize::from(number);
        let is_term = number > 0 && matches!(self.kind_of(number), 1 | 2);
        let why = if number >= self.script.len() {
            format!(", and {}", self.end())
        } else if number >= here {
            ", which is not before this one".to_string()
        } else if !is_term {
            format!(", {}, and no earlier term record", self.kind_words(number))
        } else {
            return None;
        };
        Some(Reason::own(format!("{what} is script record {number}{why}")))
    }

    /// 10
    pub fn query(&self) -> Option<Reason> {
        let [_, a, b, ..] = self.get(0);
        let no_term = |(what, number)| vocabulary::no_term(&self.vocabulary, what, usize::from(number));
        [("the query's A", a), ("the query's B", b)]
            .into_iter()
            .find_map(no_term)
            .map(Reason::foreign)
    }

    /// 14
    pub fn header(&self) -> Option<Reason> {
        let words = self.get(0);
        let [w0, ..] = words;
        if w0 != HEADER_WORD {
            return Some(Reason::own(format!("w0 is {w0}, and a header has {HEADER_WORD}")));
        }
        let (number, word) = (0..).zip(words).skip(4).find(|(_, word)| *word != 0)?;
        Some(Reason::own(format!("w{number} is {word}, and a header has 0")))
    }

    /// 15
    pub fn kind(&self, number: usize) -> Option<Reason> {
        let kind = self.kind_of(number);
        let is_wrong = !(1..=5).contains(&kind);
        is_wrong.then(|| Reason::own(format!("the kind is {kind}, and records have 1 to 5")))
    }

    /// 16
    pub fn unused(&self, number: usize) -> Option<Reason> {
        let (words, used): (_, &[usize]) = match self.kind_of(number) {
            1 => ("the constant uses w0 only", &[0]),
            2 => ("a function term uses w0 to w2 only", &[0, 1, 2]),
            3 => ("a start uses w0, w1 and w7 only", &[0, 1, 7]),
            4 => ("an extension uses w0 to w5 and w7 only", &[0, 1, 2, 3, 4, 5, 7]),
            5 => ("a reduction uses w0, w1 and w7 only", &[0, 1, 7]),
            _ => return None,
        };
        let numbered = self.get(number).into_iter().enumerate();
        let (unused, word) = numbered
            .filter(|(_, word)| *word != 0)
            .find(|(number, _)| !used.contains(number))?;
        Some(Reason::own(format!("w{unused} is {word}, and {words}")))
    }

    /// 17
    pub fn term(&self, number: usize) -> Option<Reason> {
        if number == 1 && self.script.len() < 2 {
            return Some(Reason::own("there is no script record 1; it has to be the constant a"));
        }
        match (number, self.kind_of(number)) {
            (0, _) | (1, 1) => None,
            (1, _) => {
                let kind = self.kind_words(number);
                Some(Reason::own(format!("it is {kind}, and has to be the constant a")))
            }
            (_, 1) => Some(Reason::own(
                "it is a second constant; the constant a is script record 1 only",
            )),
            (_, 2) => self.function(number),
            _ => None,
        }
    }

    /// What is wrong with a term of a function.
    fn function(&self, number: usize) -> Option<Reason> {
        let [_, function, inner, ..] = self.get(number);
        let owner = usize::from(function);
        if let Some(absent) = vocabulary::absent(&self.vocabulary, owner) {
            return Some(Reason::foreign(absent));
        }
        if owner == 0 || !matches!(self.vocabulary.get(owner).kind, 7 | 8) {
            let named = vocabulary::named(&self.vocabulary, owner);
            let only = "only restrictions (kinds 7 and 8) have one";
            return Some(Reason::foreign(format!("{named}, has no function; {only}")));
        }
        self.no_term("the inner term", inner, number)
    }

    /// 19
    pub fn link(&self, number: usize) -> Option<Reason> {
        let words = self.get(number);
        let is_step = |words| Entry::read(words).is_some_and(Entry::is_step);
        let (what, link) = match words {
            [_, _, _, first, ..] if number == 0 => ("the first step", first),
            [.., next] if is_step(words) => ("its next", next),
            _ => return None,
        };
        let to = usize::from(link);
        let why = if link == 0 || (to > number && is_step(self.get(to))) {
            return None;
        } else if to >= self.script.len() {
            format!(", and {}", self.end())
        } else if to <= number {
            ", which is not after this one".to_string()
        } else {
            format!(", {}, and no step", self.kind_words(to))
        };
        Some(Reason::own(format!("{what} is script record {to}{why}")))
    }
}
