//! `desk within`.

use super::pair::{Answered, Emptiness, Subject, Wording};
use super::pictures::{Pictures, DOT, SVG};
use super::WORDS;
use crate::console::Console;
use crate::display::grouped;
use crate::explain::Explained;
use crate::input::Input;
use crate::question::{Questions, Within};
use crate::refused;
use crate::report::Stop;
use crate::term::Pair;
use base::arguments::{Arguments, Flag};
use base::{Failure, Status};

/// The options.
pub const FLAGS: &[Flag] = &[WORDS, DOT, SVG];

/// How the answer is worded.
pub const WORDING: Wording = Wording {
    holds: ["A lies within B", "within"],
    fails: ["A does not lie within B", "not within"],
};

pub fn run(arguments: &Arguments, console: &mut Console) -> Result<Status, Stop> {
    let pictures = Pictures::wanted(arguments)?;
    let subject = Subject::read(arguments, console.style)?;
    let (input, [a, b]) = (&subject.input, subject.pair);
    let refused = |refusal| Stop::from(refused::of_vocabulary(console.style, input, refusal));
    let mut questions = Questions::new(&input.bytes);
    let answer = match questions.within(a, b).map_err(refused)? {
        Within::Answer(answer) => answer,
        Within::NoRoom => return Err(no_room(input, subject.pair).into()),
    };
    let empty = Emptiness::ask(&mut questions, subject.pair, answer).map_err(refused)?;
    let answered = subject.answered((answer, empty), &questions)?;
    let explained = explained(&answered)?;
    let mut report = answered.report(console.style, input, &WORDING, explained.as_ref());
    pictures.draw(explained.as_ref(), &subject.files(), &mut report)?;
    Ok(console.answer(report)?)
}

/// The element that tells the terms apart, where one does: it belongs to A.
pub fn explained(answered: &Answered) -> Result<Option<Explained<'_>>, Failure> {
    let explained = answered.explained()?;
    if explained.as_ref().is_some_and(|element| !element.is_in_first()) {
        let message = "the element does not belong to A, against what is proved";
        return Err(Failure::new(Status::Defect, message));
    }
    Ok(explained)
}

/// Why there is no answer where the vocabulary is full.
pub fn room_words([a, b]: Pair) -> String {
    let records = grouped(judge::RECORDS as u64);
    format!("has {records} records, which leaves no room for the record \"{a} and {b}\", and none says it")
}

/// The failure for that reason.
pub fn no_room(input: &Input, pair: Pair) -> Failure {
    let message = format!(
        "{}: {}; a script can still show it ('desk verify')",
        input.name,
        room_words(pair)
    );
    Failure::new(Status::Refused, message)
}
