//! What is wrong at the place of a refusal, in detail. It is for display only: the verdict is the library's, and a detail
//! is looked for where the library refuses and nowhere else.

mod script;
mod step;
mod vocabulary;

#[cfg(test)]
mod tests;

use crate::trace;
use base::vocabulary::Record;
use judge::{Refusal, Rule};
use script::Checked;

/// What is wrong.
#[derive(Clone, Debug, PartialEq, Eq)]
struct Reason {
    /// In words.
    words: String,
    /// Whether it is a reference to the vocabulary that does not fit.
    foreign: bool,
}

impl Reason {
    /// A fault of the script, whatever its vocabulary.
    fn own(words: impl Into<String>) -> Reason {
        Reason {
            words: words.into(),
            foreign: false,
        }
    }

    /// A reference that does not fit this vocabulary.
    fn foreign(words: impl Into<String>) -> Reason {
        Reason {
            words: words.into(),
            foreign: true,
        }
    }
}

/// What is wrong where the script check refuses, be it the vocabulary or the script; nothing where the words of the
/// refusal say it all.
pub fn detail(vocabulary: &[u8], script: &[u8], refusal: Refusal) -> Option<String> {
    if refusal.rule.is_of_vocabulary() {
        vocabulary_detail(vocabulary, refusal)
    } else {
        reason(vocabulary, script, refusal).map(|reason| reason.words)
    }
}

/// Whether a script is refused for a reference to the vocabulary that does not fit, so that it may be a script for
/// another.
pub fn is_foreign(vocabulary: &[u8], script: &[u8], refusal: Refusal) -> bool {
    reason(vocabulary, script, refusal).is_some_and(|reason| reason.foreign)
}

/// What is wrong where a vocabulary is refused (2 to 8 and 28), or a number that was asked for in it (9 and 10).
pub fn vocabulary_detail(vocabulary: &[u8], refusal: Refusal) -> Option<String> {
    vocabulary::detail(&base::vocabulary::Vocabulary::read(vocabulary), refusal)
}

/// What is wrong with a record that is not added to an accepted vocabulary (3 to 7).
pub fn addition_detail(bytes: &[u8], record: Record, refusal: Refusal) -> Option<String> {
    vocabulary::addition(&base::vocabulary::Vocabulary::read(bytes), record, refusal)
}

fn reason(vocabulary: &[u8], script: &[u8], refusal: Refusal) -> Option<Reason> {
    let checked = Checked::new(vocabulary, script);
    let record = refusal.place as usize;
    match refusal.rule {
        Rule::Query => checked.query(),
        Rule::ScriptHeader => checked.header(),
        Rule::ScriptKind => checked.kind(record),
        Rule::UnusedWord => checked.unused(record),
        Rule::Term => checked.term(record),
        Rule::Step => checked.step(record),
        Rule::StepLink => checked.link(record),
        rule if rule.is_of_chain() => Some(Reason {
            words: trace::reason(vocabulary, script, refusal)?,
            foreign: rule == Rule::Extension,
        }),
        _ => None,
    }
}

/// What there is, from 0 on: `column 0 only`, `columns 0 and 1`, `columns 0 to 2`.
fn from_zero(noun: &str, count: usize) -> String {
    match count {
        0 => format!("no {noun}"),
        1 => format!("{noun} 0 only"),
        2 => format!("{noun}s 0 and 1"),
        _ => format!("{noun}s 0 to {}", count - 1),
    }
}
