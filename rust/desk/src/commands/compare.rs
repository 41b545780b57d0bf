//! `desk compare`.

use super::pair::{Emptiness, Subject, Wording};
use super::pictures::{Pictures, DOT, SVG};
use super::{apart, output, WORDS};
use crate::console::Console;
use crate::files;
use crate::question::Questions;
use crate::refused;
use crate::report::Stop;
use base::arguments::{Arguments, Flag};
use base::Status;

/// The options.
pub const FLAGS: &[Flag] = &[WORDS, SURVIVORS, DOT, SVG];
const SURVIVORS: Flag = Flag::valued("--survivors");

/// How the answer is worded.
pub const WORDING: Wording = Wording {
    holds: ["equal", "equal"],
    fails: ["different", "different"],
};

pub fn run(arguments: &Arguments, console: &mut Console) -> Result<Status, Stop> {
    apart(arguments, &[SURVIVORS, DOT, SVG])?;
    let (survivors, pictures) = (output(arguments, SURVIVORS)?, Pictures::wanted(arguments)?);
    let subject = Subject::read(arguments, console.style)?;
    let (input, [a, b]) = (&subject.input, subject.pair);
    let refused = |refusal| Stop::from(refused::of_vocabulary(console.style, input, refusal));
    let mut questions = Questions::new(&input.bytes);
    let answer = questions.compare(a, b).map_err(refused)?;
    let empty = Emptiness::ask(&mut questions, subject.pair, answer).map_err(refused)?;
    let answered = subject.answered((answer, empty), &questions)?;
    let explained = answered.explained()?;
    let mut report = answered.report(console.style, input, &WORDING, explained.as_ref());
    if let Some(path) = survivors {
        files::write(path, &answered.survivors, &subject.files())?;
    }
    pictures.draw(explained.as_ref(), &subject.files(), &mut report)?;
    Ok(console.answer(report)?)
}
