//! The worst known vocabularies.

use std::path::Path;
use std::time::Duration;

use base::arguments::Arguments;
use base::{Failure, Status};

use super::{call_alone, expected, judged, our_program, ours, reply, Times};
use crate::emit::Form;
use crate::files::{read_vocabulary, Scratch};
use crate::output::say_line;
use crate::process;
use crate::question::Question;
use crate::reasoner::{write_query, Reasoner};
use crate::report::milliseconds;

/// The files of bench/data, whose question is their first and their last term, as in bench/comparison_questions.c.
const WORST: [&str; 7] = [
    "walk8",
    "walk10",
    "walk12",
    "counter2_8",
    "counter2_12",
    "late12",
    "never12",
];

/// How often a process that ends within the limit is run.
const WORST_RUNS: usize = 5;

/// The vocabularies of bench/data; a row is printed as soon as it is known.
pub fn worst(arguments: &Arguments) -> Result<Status, Failure> {
    let [directory] = arguments.words(["DIRECTORY"])?;
    let (program, limit) = (our_program(arguments)?, process::limit(arguments, 60)?);
    let reasoners = Reasoner::both(arguments)?;
    let scratch = Scratch::new()?;
    say_line("| input | answer | the call alone, ms | library, ms | FaCT++, ms | times | Konclude, ms | times |")?;
    say_line("|---|---|---:|---:|---:|---:|---:|---:|")?;
    for name in WORST {
        let path = Path::new(directory).join(format!("{name}.bin"));
        let vocabulary = read_vocabulary(&path)?;
        let last = vocabulary.terms().last().copied().unwrap_or(0);
        let question = Question::new(vocabulary, 1, last);
        let expected = expected(&question)?;
        let mut library = Times::default();
        for _ in 0..WORST_RUNS {
            let run = process::run(ours(program, &path, &question), limit)?;
            library.add(&run, judged(reply(&run), expected));
        }
        let (call, ours) = (call_alone(&question), library.median());
        let mut row = format!("| {name} | {expected:?} | {call:.3} | {ours:.2}");
        for reasoner in &reasoners {
            let times = run_worst(&scratch, reasoner, &question, limit)?;
            row += &format!(" | {}", cells(&times, ours, limit));
        }
        say_line(&format!("{row} |"))?;
    }
    say_line("")?;
    Ok(Status::Holds)
}

/// The runs of a reasoner: one where it takes over a tenth of the limit.
fn run_worst(scratch: &Scratch, reasoner: &Reasoner, question: &Question, limit: Duration) -> Result<Times, Failure> {
    let stem = scratch.file("worst");
    write_query(reasoner.language, Form::Named, &stem, question)?;
    let mut times = Times::default();
    for _ in 0..WORST_RUNS {
        let run = process::run(reasoner.query(&stem), limit)?;
        times.add(&run, judged(reasoner.reply(&run), expected(question)?));
        if run.time > limit / 10 {
            break;
        }
    }
    Ok(times)
}

/// A reasoner's time and how many times the library's it is.
fn cells(times: &Times, library: f64, limit: Duration) -> String {
    if times.ended > 0 {
        let least = milliseconds(limit) / library;
        return format!("over {} s | over {least:.0}", limit.as_secs());
    }
    let runs = times.figures.len();
    let said = match (times.wrong, times.no_answer) {
        (0, 0) => String::new(),
        (wrong, 0) => format!(" (**wrong** in {wrong} of {runs} runs)"),
        (wrong, none) => format!(" (**wrong** in {wrong} and no answer in {none} of {runs} runs)"),
    };
    format!("{:.2}{said} | {:.1}", times.median(), times.median() / library)
}
