//! The library's answers beside those of the reasoners, over random vocabularies.

use std::ffi::OsStr;
use std::fmt::Write;
use std::path::PathBuf;
use std::time::Duration;

use base::arguments::Arguments;
use base::{Failure, Status};
use judge::Verdict;

use crate::commands::{COUNT, SEED, TO};
use crate::draw;
use crate::emit::Form;
use crate::files::{self, Scratch};
use crate::output::say_line;
use crate::process;
use crate::question::Question;
use crate::random::Random;
use crate::reasoner::{self, Reasoner, Reply};
use crate::report::share;

#[cfg(test)]
mod tests;

/// How often a reasoner that answers otherwise is asked again.
const AGAIN: usize = 10;

/// What the questions were.
#[derive(Default)]
struct Shares {
    questions: usize,
    equal: usize,
    different: usize,
    confirmed: usize,
    trivial: usize,
    inconsistent: usize,
    with_rounds: usize,
}

/// What a reasoner answered.
#[derive(Default)]
struct Score {
    same: usize,
    steady: usize,
    unsteady: usize,
    /// Of the steady ones, those that count against the library.
    open: usize,
    /// No answer with the terms named: past the time limit, and before it.
    out_of_time: usize,
    no_answer: usize,
    /// No answer with the terms written out either.
    silent: usize,
}

impl Score {
    fn count(&mut self, form: Form, reply: Reply) {
        match (form, reply) {
            (Form::Named, Reply::OutOfTime) => self.out_of_time += 1,
            (Form::Named, Reply::NoAnswer) => self.no_answer += 1,
            (Form::WrittenOut, Reply::OutOfTime | Reply::NoAnswer) => self.silent += 1,
            (_, Reply::Equal | Reply::Different) => {}
        }
    }
}

fn is_answer(reply: Reply) -> bool {
    matches!(reply, Reply::Equal | Reply::Different)
}

/// A run of the comparison.
struct Trial {
    seed: u64,
    limit: Duration,
    scratch: Scratch,
    to: PathBuf,
}

/// Draws the questions, puts them to all, and prints each disagreement and the tables. It does not hold where some
/// answer of the library is left open.
pub fn run(arguments: &Arguments) -> Result<Status, Failure> {
    let [] = arguments.words([])?;
    let count = arguments.number(COUNT.name, 600)?;
    let (seed, limit) = (arguments.number(SEED.name, 1)?, process::limit(arguments, 20)?);
    let reasoners = Reasoner::both(arguments)?;
    let trial = Trial {
        seed,
        limit,
        scratch: Scratch::new()?,
        to: PathBuf::from(arguments.value(TO.name).unwrap_or(OsStr::new("target/bridge"))),
    };
    let mut random = Random::new(seed);
    let mut shares = Shares::default();
    let mut scores: Vec<Score> = reasoners.iter().map(|_| Score::default()).collect();
    for number in 0..count {
        let question = draw::question(&mut random)?;
        shares.add(&question)?;
        if !question.is_equal()? && !question.is_confirmed()? {
            trial.keep(number, &question, "the meaning does not confirm it")?;
        }
        for (reasoner, score) in reasoners.iter().zip(&mut scores) {
            trial.put(number, &question, reasoner, score)?;
        }
    }
    say_line(&shares.table())?;
    say_line(&table_of(&reasoners, &scores, shares.questions))?;
    say_line(&summary(&shares, &scores))?;
    Ok(status(&shares, &scores))
}

/// What is left open.
fn summary(shares: &Shares, scores: &[Score]) -> String {
    format!(
        "left open: {} different that the meaning does not confirm, {} denials of an equal in every run and form",
        shares.unconfirmed(),
        denied(scores)
    )
}

/// How often a reasoner denies an Equal of the library so that it counts.
fn denied(scores: &[Score]) -> usize {
    scores.iter().map(|score| score.open).sum()
}

fn status(shares: &Shares, scores: &[Score]) -> Status {
    if shares.unconfirmed() + denied(scores) > 0 {
        Status::DoesNotHold
    } else {
        Status::Holds
    }
}

/// Whether a steady disagreement counts against the library. A Different of the library has its interpretation, which
/// is looked at apart; an Equal has none, but a reasoner that answers Equal too where the terms are written out
/// contradicts itself.
fn is_open(expected: Reply, written_out: Reply) -> bool {
    expected == Reply::Equal && written_out != Reply::Equal
}

impl Trial {
    /// Puts a question to a reasoner; where it has no answer, again with all terms written out.
    fn put(&self, number: u64, question: &Question, reasoner: &Reasoner, score: &mut Score) -> Result<(), Failure> {
        let expected = if question.is_equal()? {
            Reply::Equal
        } else {
            Reply::Different
        };
        let mut reply = Reply::NoAnswer;
        for form in [Form::Named, Form::WrittenOut] {
            if !is_answer(reply) && reasoner::write_query(reasoner.language, form, &self.stem(), question)? {
                reply = self.ask(reasoner)?;
                score.count(form, reply);
            }
        }
        if !is_answer(reply) {
            let what = format!("{}: no answer, in neither form", reasoner.name());
            self.keep(number, question, &what)?;
        } else if reply == expected {
            score.same += 1;
        } else {
            self.settle(number, question, reasoner, (expected, reply), score)?;
        }
        Ok(())
    }

    /// Asks a reasoner that answers otherwise than expected again, counts what it does, and says so.
    fn settle(
        &self,
        number: u64,
        question: &Question,
        reasoner: &Reasoner,
        (expected, reply): (Reply, Reply),
        score: &mut Score,
    ) -> Result<(), Failure> {
        let as_before = self.ask_again(reasoner, reply)?;
        let out = self.ask_written_out(reasoner, question)?;
        if as_before < AGAIN {
            score.unsteady += 1;
        } else {
            score.steady += 1;
            score.open += usize::from(is_open(expected, out));
        }
        let name = reasoner.name();
        let what = format!("{name}: {reply:?}, again in {as_before} of {AGAIN} runs; written out: {out:?}");
        self.keep(number, question, &what)
    }

    fn stem(&self) -> PathBuf {
        self.scratch.file("query")
    }

    fn ask(&self, reasoner: &Reasoner) -> Result<Reply, Failure> {
        Ok(reasoner.reply(&process::run(reasoner.query(&self.stem()), self.limit)?))
    }

    /// How often a reasoner answers as before.
    fn ask_again(&self, reasoner: &Reasoner, before: Reply) -> Result<usize, Failure> {
        let mut count = 0;
        for _ in 0..AGAIN {
            count += usize::from(self.ask(reasoner)? == before);
        }
        Ok(count)
    }

    /// What a reasoner answers where all terms are written out: another answer than before is a fault of its own.
    fn ask_written_out(&self, reasoner: &Reasoner, question: &Question) -> Result<Reply, Failure> {
        if reasoner::write_query(reasoner.language, Form::WrittenOut, &self.stem(), question)? {
            self.ask(reasoner)
        } else {
            Ok(Reply::NoAnswer)
        }
    }

    /// Keeps the vocabulary of a disagreement, and says what it is.
    fn keep(&self, number: u64, question: &Question, what: &str) -> Result<(), Failure> {
        files::create(&self.to)?;
        let path = self.to.join(format!("seed-{}-{number}.vocabulary", self.seed));
        files::write(&path, &question.bytes)?;
        let ours = match question.answer()?.0.verdict {
            Verdict::Equal => "equal".to_owned(),
            Verdict::Different { element } if question.is_confirmed()? => {
                format!("different, element {element}, confirmed by the meaning")
            }
            Verdict::Different { element } => format!("different, element {element}, NOT confirmed"),
        };
        let (path, a, b) = (path.display(), question.a, question.b);
        say_line(&format!("{path}, terms {a} and {b}: library: {ours}; {what}"))
    }
}

impl Shares {
    fn add(&mut self, question: &Question) -> Result<(), Failure> {
        let equal = question.is_equal()?;
        self.questions += 1;
        self.equal += usize::from(equal);
        self.different += usize::from(!equal);
        self.confirmed += usize::from(question.is_confirmed()?);
        self.trivial += usize::from(question.is_trivial()?);
        self.inconsistent += usize::from(question.is_inconsistent()?);
        self.with_rounds += usize::from(question.answer()?.0.rounds > 0);
        Ok(())
    }

    /// How many Different of the library the meaning does not confirm.
    fn unconfirmed(&self) -> usize {
        self.different - self.confirmed
    }

    fn table(&self) -> String {
        let mut table = format!("| questions | {} |\n|---|---:|\n", self.questions);
        for (what, count) in [
            ("equal", self.equal),
            ("different", self.different),
            (
                "different, confirmed by the meaning of the survivors written",
                self.confirmed,
            ),
            ("trivial: one term twice, or equal with no statement", self.trivial),
            ("nothing satisfies the statements", self.inconsistent),
            ("some type removed in a round", self.with_rounds),
        ] {
            let _ = writeln!(table, "| {what} | {} |", share(count, self.questions));
        }
        table
    }
}

/// What a row of the table counts.
type Count = fn(&Score) -> usize;

/// The answers of the reasoners.
fn table_of(reasoners: &[Reasoner], scores: &[Score], questions: usize) -> String {
    let names: String = reasoners
        .iter()
        .map(|reasoner| format!(" {} |", reasoner.name()))
        .collect();
    let rule = "---:|".repeat(reasoners.len());
    let mut table = format!("| of {questions} answers |{names}\n|---|{rule}\n");
    let rows: [(&str, Count); 7] = [
        ("as the library", |score| score.same),
        ("otherwise, the same in ten more runs", |score| score.steady),
        ("of these, left open", |score| score.open),
        ("otherwise, not the same in ten more runs", |score| score.unsteady),
        ("none in either form", |score| score.silent),
        ("past the time limit with the terms named", |score| score.out_of_time),
        ("ended without an answer with the terms named", |score| score.no_answer),
    ];
    for (what, count) in rows {
        let counts: String = scores.iter().map(|score| format!(" {} |", count(score))).collect();
        let _ = writeln!(table, "| {what} |{counts}");
    }
    table
}
