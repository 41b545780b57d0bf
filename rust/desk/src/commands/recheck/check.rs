//! Lines against the library: whether what they claim holds.

use super::asked::{asked, Unfit};
use super::kept::{Files, Kept, Known, Seen};
use super::line::{repeated, Claim, Row, Text};
use super::outcome::{Outcome, Shown, Sort, Terms, Told};
use super::table::Line;
use crate::cause;
use crate::commands::within::room_words;
use crate::drawing::{svg, Graph};
use crate::explain::Explained;
use crate::input::Input;
use crate::question::Within;
use crate::script;
use crate::term::Pair;
use base::Status;
use judge::{Comparison, Verdict};
use std::sync::Arc;

/// What the command line asks of every line.
#[derive(Clone)]
pub struct Wanted {
    /// Lines that hold vacuously fail.
    pub strict: bool,
    /// Lines that do not hold are explained.
    pub explain: bool,
    /// Where files are looked for.
    pub files: Files,
}

/// How lines are judged.
#[derive(Clone, Copy, Debug, Default)]
pub struct Manner {
    /// Lines that hold vacuously fail.
    pub strict: bool,
    /// Lines that do not hold are explained.
    pub explain: bool,
    /// What tells the terms apart is drawn.
    pub draw: bool,
}

/// Checks lines.
pub struct Checker {
    manner: Manner,
    /// Whether the explanations are told, and not for a page alone.
    explain: bool,
    kept: Kept,
}

impl Checker {
    /// One that has read nothing.
    pub fn new(wanted: Wanted) -> Checker {
        let draw = wanted.files.notes;
        Checker {
            manner: Manner {
                strict: wanted.strict,
                explain: wanted.explain || draw,
                draw,
            },
            explain: wanted.explain,
            kept: Kept::new(wanted.files),
        }
    }

    /// How a line comes out; nothing if it says nothing.
    pub fn check(&mut self, line: &Line) -> Option<Told> {
        let text = Text::of(line);
        if !text.says() {
            return None;
        }
        let mut shown = self.kept.files.notes.then(Box::<Shown>::default);
        let mut outcome = match text.read() {
            Err(malformed) => Outcome::malformed(&malformed, &text.text),
            Ok(row) => self.judge(&row, &text.text, shown.as_deref_mut().unwrap_or(&mut Shown::default())),
        };
        if let Some(shown) = &mut shown {
            shown.detail.clone_from(&outcome.detail);
        }
        if !self.explain {
            outcome = outcome.in_short();
        }
        let text = match outcome.sort {
            Sort::Holds if shown.is_none() => String::new(),
            _ => repeated(&text.text),
        };
        Some(Told {
            number: line.number,
            text,
            outcome,
            shown,
        })
    }

    fn judge(&mut self, row: &Row, text: &str, shown: &mut Shown) -> Outcome {
        let trouble = self.kept.vocabulary(row.vocabulary.text).err();
        shown.files.extend(self.kept.seen());
        if let Some(trouble) = trouble {
            return Outcome::trouble(trouble, row.vocabulary, text);
        }
        // Before the vocabulary is borrowed from those that are kept.
        let script = match script_of(&self.kept.files, row, text, &mut shown.files) {
            Ok(script) => script,
            Err(outcome) => return *outcome,
        };
        let known = match self.kept.vocabulary(row.vocabulary.text) {
            Ok(known) => known,
            Err(trouble) => return Outcome::trouble(trouble, row.vocabulary, text),
        };
        let (outcome, terms) = judge(known, row, text, script.as_ref(), self.manner);
        shown.terms = terms;
        outcome
    }
}

/// The script that a line names, if it names one.
pub fn script_of(
    files: &Files,
    row: &Row,
    text: &str,
    seen: &mut Vec<Arc<Seen>>,
) -> Result<Option<Input>, Box<Outcome>> {
    let Claim::Proved(field) = row.claim else {
        return Ok(None);
    };
    let (noted, script) = files.script(field.text);
    seen.extend(noted);
    let trouble = |trouble| Box::new(Outcome::trouble(trouble, field, text));
    script.map(Some).map_err(trouble)
}

/// How a line comes out whose vocabulary, and script if it names one, are read; and its terms, where they are wanted.
pub fn judge(known: &mut Known, row: &Row, text: &str, script: Option<&Input>, manner: Manner) -> (Outcome, Terms) {
    let asked = match asked(known, row) {
        Ok(asked) => asked,
        Err(Unfit::Refused(why)) => return (Outcome::unfit(why), Terms::default()),
        Err(Unfit::Malformed(malformed)) => return (Outcome::malformed(&malformed, text), Terms::default()),
    };
    let judged = |known: &mut Known| {
        let terms = match manner.draw {
            true => asked.pair.map(|number| named(known, number)),
            false => Terms::default(),
        };
        (claimed(known, row.claim, asked.pair, script, manner), terms)
    };
    // Of terms that no record says, a copy is asked about that has them.
    match known.extended(&asked) {
        Ok(None) => judged(known),
        Ok(Some(mut copy)) => judged(&mut copy),
        Err(refused) => (Outcome::unfit(refused.words(&known.input)), Terms::default()),
    }
}

/// How a claim about the terms of two records comes out.
pub fn claimed(known: &mut Known, claim: Claim, pair: Pair, script: Option<&Input>, manner: Manner) -> Outcome {
    let judged = match (claim, script) {
        (Claim::Proved(_), Some(script)) => proved(known, pair, script, manner),
        (Claim::Within | Claim::Proved(_), _) => within(known, pair, manner),
        (Claim::Equal, _) => equal(known, pair, manner),
        (Claim::Different, _) => different(known, pair, manner),
    };
    match judged {
        Judged::Fails(outcome) => *outcome,
        Judged::Holds(None) => Outcome::holds(),
        Judged::Holds(Some(because)) => {
            let status = if manner.strict {
                Status::DoesNotHold
            } else {
                Status::Holds
            };
            Outcome::new(Sort::Vacuous, status, format!("holds only because {because}"))
        }
    }
}

/// A term written out, where a number names one.
fn named(known: &mut Known, number: u32) -> Option<String> {
    let number = u16::try_from(number).ok()?;
    let written = known.written();
    let is_term = written.vocabulary().get(usize::from(number)).is_term();
    is_term.then(|| written.term(number))
}

/// How a claim comes out.
enum Judged {
    /// It holds; if vacuously, why.
    Holds(Option<String>),
    /// It does not, or that cannot be said.
    Fails(Box<Outcome>),
}

impl From<Outcome> for Judged {
    fn from(outcome: Outcome) -> Judged {
        Judged::Fails(Box::new(outcome))
    }
}

/// Why everything holds where no interpretation satisfies the statements.
const NO_SURVIVOR: &str = "nothing satisfies the statements";

/// Compares two terms.
fn compared(known: &mut Known, [a, b]: Pair) -> Result<Comparison, Judged> {
    let answer = known.questions.compare(a, b);
    answer.map_err(|refusal| Outcome::of_vocabulary(refusal, &known.input).into())
}

fn equal(known: &mut Known, pair: Pair, manner: Manner) -> Judged {
    let answer = match compared(known, pair) {
        Ok(answer) => answer,
        Err(judged) => return judged,
    };
    if let Verdict::Different { element } = answer.verdict {
        let outcome = Outcome::fails(format!("the terms are different, element {element}"));
        return told_apart(known, pair, element, outcome, manner).into();
    }
    let [a, _] = pair;
    Judged::Holds(if answer.survivors == 0 {
        Some(NO_SURVIVOR.to_string())
    } else if known.is_empty(a) {
        Some("nothing can belong to either term".to_string())
    } else {
        None
    })
}

fn different(known: &mut Known, pair: Pair, manner: Manner) -> Judged {
    match compared(known, pair) {
        Err(judged) => judged,
        Ok(answer) if answer.verdict != Verdict::Equal => Judged::Holds(None),
        Ok(answer) => {
            let outcome = Outcome::fails("the terms are equal");
            if !manner.explain {
                return outcome.into();
            }
            let detail = match answer.survivors {
                0 => "no interpretation satisfies the statements, so all terms are equal\n",
                _ => "",
            };
            outcome.with_detail(terms(known, pair), detail.to_string()).into()
        }
    }
}

fn within(known: &mut Known, pair: Pair, manner: Manner) -> Judged {
    let [a, b] = pair;
    let answer = match known.questions.within(a, b) {
        Err(refusal) => return Outcome::of_vocabulary(refusal, &known.input).into(),
        Ok(Within::NoRoom) => {
            let why = format!("the vocabulary {}", room_words(pair));
            return Outcome::new(Sort::Refused, Status::Refused, why).into();
        }
        Ok(Within::Answer(answer)) => answer,
    };
    match answer.verdict {
        Verdict::Equal if answer.survivors == 0 => Judged::Holds(Some(NO_SURVIVOR.to_string())),
        Verdict::Equal => Judged::Holds(within_nothing(known, pair)),
        Verdict::Different { element } => {
            let [a, b] = pair.map(|number| known.called(number));
            let why = format!("{a} does not lie within {b}, element {element}");
            told_apart(known, pair, element, Outcome::fails(why), manner).into()
        }
    }
}

/// Why one term lies within another whatever that is.
fn within_nothing(known: &mut Known, [a, _]: Pair) -> Option<String> {
    known
        .is_empty(a)
        .then(|| format!("nothing can belong to {}", known.called(a)))
}

fn proved(known: &mut Known, pair: Pair, script: &Input, manner: Manner) -> Judged {
    match judge::check_script(&known.input.bytes, &script.bytes) {
        Err(refusal) if refusal.rule.is_of_vocabulary() => return Outcome::of_vocabulary(refusal, &known.input).into(),
        Err(refusal) => {
            let detail = manner
                .explain
                .then(|| cause::detail(&known.input.bytes, &script.bytes, refusal));
            let outcome = Outcome::refused(refusal, script);
            let detail = detail.flatten().unwrap_or_default();
            return outcome.with_detail(String::new(), detail).into();
        }
        Ok(_) => {}
    }
    let [_, asked_a, asked_b, ..] = script::read(&script.bytes).first().copied().unwrap_or_default();
    let asked = [asked_a, asked_b].map(u32::from);
    if asked != pair {
        let why = format!("the script proves that term {asked_a} lies within term {asked_b}");
        let terms = match manner.explain {
            true => terms(known, pair),
            false => String::new(),
        };
        return Outcome::fails(why).with_detail(terms, String::new()).into();
    }
    Judged::Holds(if known.is_contradictory() {
        Some(NO_SURVIVOR.to_string())
    } else {
        within_nothing(known, pair)
    })
}

/// The terms of a line, written out.
fn terms(known: &mut Known, pair: Pair) -> String {
    let written = known.written();
    let [a, b] = pair.map(|number| written.term(number as u16));
    format!("  A: {a}\n  B: {b}\n")
}

/// An outcome with the element that tells the terms apart, where that is wanted.
fn told_apart(known: &mut Known, pair: Pair, element: u16, outcome: Outcome, manner: Manner) -> Outcome {
    if !manner.explain {
        return outcome;
    }
    let terms = terms(known, pair);
    let survivors = *known.questions.survivors();
    match Explained::new(known.written(), pair, element, &survivors) {
        Err(failure) => Outcome::new(Sort::DoesNotHold, failure.status, failure.message),
        Ok(explained) => Outcome {
            explained: explained.json().into(),
            drawing: manner.draw.then(|| drawn(&explained)),
            ..outcome.with_detail(terms, explained.text())
        },
    }
}

/// The counter-model as it stands below its line, which has the terms already.
fn drawn(explained: &Explained) -> String {
    svg::element(&Graph {
        captions: Vec::new(),
        ..explained.graph()
    })
}
