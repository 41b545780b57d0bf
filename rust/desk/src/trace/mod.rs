//! The steps of a script, replayed for display: the goal, the column used and the open frames of each. The verdict is
//! the library's alone; where the replay comes to another, that is an error in desk.

mod program;
mod run;
mod words;

#[cfg(test)]
mod tests;

use crate::input::Input;
use crate::json::Json;
use crate::text::vocabulary::Written;
use crate::{script, text};
use base::vocabulary::Vocabulary;
use base::{Failure, Status};
use judge::Refusal;
use words::Words;

/// A trace for people and for programs.
pub struct Shown {
    /// What people read.
    pub text: String,
    /// What programs read.
    pub json: Json,
}

/// The trace of a script on which the library has given its verdict; none if the script does not keep the form.
pub fn of(vocabulary: &Written, script: &Input, verdict: Result<u32, Refusal>) -> Result<Option<Shown>, Failure> {
    if verdict.is_err_and(|refusal| !refusal.rule.is_of_chain()) {
        return Ok(None);
    }
    let records = script::merged(&script::read(&script.bytes));
    let trace = run::replay(vocabulary.vocabulary(), &records);
    agreed(&trace, verdict)?;
    let words = Words {
        vocabulary,
        script: text::script::Written::new(records),
        input: Some(script),
    };
    Ok(Some(Shown {
        text: words.trace(&trace),
        json: program::trace(&words, &trace),
    }))
}

/// Why the chain of a script that keeps the form is refused; nothing where the replay comes to another refusal.
pub fn reason(vocabulary: &[u8], script: &[u8], refusal: Refusal) -> Option<String> {
    let records = script::merged(&script::read(script));
    let vocabulary = Written::new(Vocabulary::read(vocabulary));
    let trace = run::replay(vocabulary.vocabulary(), &records);
    let why = trace.refused.filter(|_| trace.agrees(Err(refusal)))?;
    let words = Words {
        vocabulary: &vocabulary,
        script: text::script::Written::new(records),
        input: None,
    };
    Some(words.reason(&trace, why))
}

/// A failure where replay and library disagree.
fn agreed(trace: &run::Trace, verdict: Result<u32, Refusal>) -> Result<(), Failure> {
    if trace.agrees(verdict) {
        return Ok(());
    }
    let library = match verdict {
        Ok(steps) => format!("accepted, {steps} steps"),
        Err(refusal) => format!("refused, {}, at script record {}", refusal.rule.number(), refusal.place),
    };
    let replay = match trace.answer() {
        Ok(steps) => format!("accepted, {steps} steps"),
        Err((number, place)) => format!("refused, {number}, at script record {place}"),
    };
    let message = format!("an error in desk: the trace comes to '{replay}', and the library says '{library}'");
    Err(Failure::new(Status::Defect, message))
}
