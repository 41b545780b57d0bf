//! `desk why`.

#[cfg(test)]
mod tests;
mod words;

use super::pair::{Answered, Emptiness, Subject};
use super::{compare, within, WORDS};
use crate::console::Console;
use crate::input::Input;
use crate::justification::{Others, Search, Set};
use crate::question::{Questions, Within};
use crate::refused;
use crate::report::{Report, Stop, Style};
use crate::signals;
use crate::term::Pair;
use base::arguments::{Arguments, Flag};
use base::vocabulary::Vocabulary;
use base::{Failure, Status};
use judge::{Comparison, Refusal, Verdict};
use words::{Justification, Reasons};

/// The options.
pub const FLAGS: &[Flag] = &[WORDS, Flag::switch("--within"), Flag::valued(ALL)];

const ALL: &str = "--all";
/// The most sets that are looked for.
const MOST: u64 = 64;

pub fn run(arguments: &Arguments, console: &mut Console) -> Result<Status, Stop> {
    let most = arguments.has(ALL).then(|| arguments.number(ALL, 1)).transpose()?;
    if most.is_some_and(|most| !(1..=MOST).contains(&most)) {
        return Err(Failure::usage(format!("{ALL} takes a number from 1 to {MOST}")).into());
    }
    let subject = Subject::read(arguments, console.style)?;
    let input = &subject.input;
    let claim = Claim {
        pair: subject.pair,
        within: arguments.has("--within"),
    };
    let stop = |halt| claim.stop(halt, console.style, input);
    let mut questions = Questions::new(&input.bytes);
    let answer = claim.ask(&mut questions).map_err(stop)?;
    let answered = subject.answered(answer, &questions)?;
    let report = claim.report(&answered, console.style, input)?;
    if report.status != Status::Holds {
        return Ok(console.answer(report)?);
    }
    let reasons = find(claim, answered.written.vocabulary(), most).map_err(stop)?;
    let text = subject.words.as_ref().unwrap_or(input);
    Ok(console.answer(reasons.report(report, console.style, [input, text], &answered))?)
}

/// What is asked of the vocabulary, and of copies with fewer statements on the chain.
#[derive(Clone, Copy)]
struct Claim {
    pair: Pair,
    /// Whether it is that A lies within B, and not that they are equal.
    within: bool,
}

/// Why there is no answer.
enum Halt {
    /// The library refuses the vocabulary, or what is asked of it.
    Refused(Refusal),
    /// There is no room for the record that is needed.
    NoRoom,
    /// There is none in a copy, though the terms are equal by all statements.
    NoRoomInCopy,
    /// A signal was caught.
    Interrupted,
}

impl From<Refusal> for Halt {
    fn from(refusal: Refusal) -> Halt {
        Halt::Refused(refusal)
    }
}

impl Claim {
    /// The comparison that answers it.
    fn compare(self, questions: &mut Questions) -> Result<Comparison, Halt> {
        let [a, b] = self.pair;
        if !self.within {
            return Ok(questions.compare(a, b)?);
        }
        match questions.within(a, b)? {
            Within::Answer(answer) => Ok(answer),
            Within::NoRoom => Err(Halt::NoRoom),
        }
    }

    /// The same, and whether nothing can belong to the terms.
    fn ask(self, questions: &mut Questions) -> Result<(Comparison, Emptiness), Halt> {
        let answer = self.compare(questions)?;
        let empty = Emptiness::ask(questions, self.pair, answer)?;
        Ok((answer, empty))
    }

    /// Whether these statements are enough for it.
    fn follows_from(self, statements: Set, vocabulary: &Vocabulary) -> Result<bool, Halt> {
        if signals::caught() {
            return Err(Halt::Interrupted);
        }
        let copy = vocabulary.with_chain(&statements.numbers()).bytes();
        match self.compare(&mut Questions::new(&copy)) {
            Ok(answer) => Ok(answer.verdict == Verdict::Equal),
            Err(Halt::NoRoom) => Err(Halt::NoRoomInCopy),
            Err(halt) => Err(halt),
        }
    }

    /// The report on all statements, as of the command that asks this alone.
    fn report(self, answered: &Answered, style: Style, input: &Input) -> Result<Report, Failure> {
        let (explained, wording) = match self.within {
            true => (within::explained(answered)?, &within::WORDING),
            false => (answered.explained()?, &compare::WORDING),
        };
        Ok(answered.report(style, input, wording, explained.as_ref()))
    }

    /// Why there is no answer, in words.
    fn stop(self, halt: Halt, style: Style, input: &Input) -> Stop {
        match halt {
            Halt::Refused(refusal) => refused::of_vocabulary(style, input, refusal).into(),
            Halt::NoRoom => within::no_room(input, self.pair).into(),
            Halt::NoRoomInCopy => {
                let room = within::room_words(self.pair);
                let message = format!(
                    "{}: {room}; without --within it can be asked why A is equal to B",
                    input.name
                );
                Failure::new(Status::Refused, message).into()
            }
            Halt::Interrupted => {
                let message = format!("{}: interrupted before a set was found", input.name);
                Failure::new(Status::Interrupted, message).into()
            }
        }
    }
}

/// Looks for one justification, or for up to so many, of what all statements are enough for.
fn find(claim: Claim, vocabulary: &Vocabulary, most: Option<u64>) -> Result<Reasons, Halt> {
    let chained = (0..).zip(vocabulary.chained());
    let statements = Set::of(chained.filter(|(_, on)| *on).map(|(number, _)| number));
    let _guard = signals::catch();
    let mut search = Search::new(statements, |set| claim.follows_from(set, vocabulary));
    let others = match most {
        None => search.first(),
        Some(most) => search.all(most as usize),
    };
    let (others, interrupted) = match others {
        Ok(others) => (others, false),
        Err(Halt::Interrupted) if !search.found.is_empty() => (Others::Unknown, true),
        Err(halt) => return Err(halt),
    };
    let mut sets = search.found;
    // The smallest first, which people read first.
    sets.sort_by_key(|set| (set.count(), set.numbers()));
    let justification = |set: Set| {
        let statements = set.numbers();
        let copy = vocabulary.with_chain(&statements).bytes();
        let (_, empty) = claim.ask(&mut Questions::new(&copy))?;
        Ok(Justification { statements, empty })
    };
    Ok(Reasons {
        within: claim.within,
        statements: statements.count(),
        sets: sets.into_iter().map(justification).collect::<Result<_, Halt>>()?,
        others,
        interrupted,
        wide: most.is_some(),
        // All statements were asked about before.
        asked: search.asked + 1,
    })
}
