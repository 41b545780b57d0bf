//! The times of the library and of the reasoners: wall time of whole processes, one run, alternating.

mod names;
mod one;
mod table;
mod worst;

pub use names::names;
pub use one::one;
pub use table::{answer_pairs, table};
pub use worst::worst;

use std::ffi::OsStr;
use std::path::{Path, PathBuf};
use std::process::Command;
use std::time::{Duration, Instant};

use base::arguments::{digits, Arguments};
use base::{Failure, Status};
use judge::SURVIVOR_BYTES;

use crate::commands::{OURS, REPEATS};
use crate::files::{read, read_vocabulary};
use crate::output::complain;
use crate::process::{self, Run};
use crate::question::Question;
use crate::reasoner::{Reasoner, Reply};
use crate::report::{median, milliseconds};

/// A question of a directory's list.
struct Entry {
    /// The path of its files without their endings.
    stem: PathBuf,
    question: Question,
}

/// The times of one side, and how often it did not answer as the library did.
#[derive(Clone, Default)]
struct Times {
    figures: Vec<f64>,
    wrong: usize,
    no_answer: usize,
    ended: usize,
}

impl Times {
    /// Adds a run, and whether its answer was right, if it gave one.
    fn add(&mut self, run: &Run, right: Option<bool>) {
        self.figures.push(milliseconds(run.time));
        self.wrong += usize::from(right == Some(false));
        self.no_answer += usize::from(right.is_none());
        self.ended += usize::from(run.ended);
    }

    fn median(&self) -> f64 {
        median(&self.figures)
    }
}

/// The questions in a directory that `customs` wrote.
fn entries(directory: &Path) -> Result<Vec<Entry>, Failure> {
    let list = read(&directory.join("list"))?;
    let mut entries = Vec::new();
    for line in list.lines() {
        let Some((name, (a, b))) = line
            .split_once(' ')
            .and_then(|(name, pair)| Some((name, read_pair(pair)?)))
        else {
            return Err(Failure::new(Status::Refused, format!("no question: {line}")));
        };
        let stem = directory.join(name);
        let vocabulary = read_vocabulary(&stem.with_extension("vocabulary"))?;
        let question = Question::asked(vocabulary, a, b)?;
        entries.push(Entry { stem, question });
    }
    Ok(entries)
}

/// What each side took on each vocabulary, the library first.
struct Contest {
    entries: Vec<Entry>,
    reasoners: Vec<Reasoner>,
    sides: Vec<Vec<Times>>,
}

/// Runs the library's program and each reasoner once on a vocabulary, within a time limit.
type RunAll = fn(&Entry, &[Reasoner], &OsStr, Duration, &mut [Times]) -> Result<(), Failure>;

/// Runs all sides on each vocabulary of a directory, by turns, as often as asked.
fn contest(arguments: &Arguments, run_all: RunAll) -> Result<Contest, Failure> {
    let [directory] = arguments.words(["DIRECTORY"])?;
    let (program, limit) = (our_program(arguments)?, process::limit(arguments, 60)?);
    let repeats = arguments.number(REPEATS.name, 11)?;
    let reasoners = Reasoner::both(arguments)?;
    let entries = entries(Path::new(directory))?;
    let mut sides = vec![vec![Times::default(); 1 + reasoners.len()]; entries.len()];
    for _ in 0..repeats {
        for (entry, sides) in entries.iter().zip(&mut sides) {
            run_all(entry, &reasoners, program, limit, sides)?;
        }
    }
    Ok(Contest {
        entries,
        reasoners,
        sides,
    })
}

/// Two term numbers with a space between.
fn read_pair(text: &str) -> Option<(u32, u32)> {
    let (a, b) = text.split_once(' ')?;
    Some((digits(a)?, digits(b)?))
}

/// The program of the library's side: it takes a vocabulary and two terms and says equal or different, or takes a
/// vocabulary and prints the taxonomy of its names.
fn our_program(arguments: &Arguments) -> Result<&OsStr, Failure> {
    let program = arguments.value(OURS.name);
    program.ok_or_else(|| Failure::usage("--ours has to name a program"))
}

/// The command of the library's side.
fn ours(program: &OsStr, vocabulary: &Path, question: &Question) -> Command {
    let mut command = Command::new(program);
    command.arg(vocabulary);
    command.args([question.a.to_string(), question.b.to_string()]);
    command
}

/// What the library's side said.
fn reply(run: &Run) -> Reply {
    if run.text.contains("different") {
        Reply::Different
    } else if run.text.contains("equal") {
        Reply::Equal
    } else {
        Reply::NoAnswer
    }
}

fn expected(question: &Question) -> Result<Reply, Failure> {
    Ok(if question.is_equal()? {
        Reply::Equal
    } else {
        Reply::Different
    })
}

/// Whether a reply is the right one, if it is an answer at all.
fn judged(reply: Reply, expected: Reply) -> Option<bool> {
    match reply {
        Reply::Equal | Reply::Different => Some(reply == expected),
        Reply::OutOfTime | Reply::NoAnswer => None,
    }
}

/// The time of a call alone, in a process that runs: the median of 21, in milliseconds.
fn call_alone(question: &Question) -> f64 {
    let mut figures = Vec::new();
    for _ in 0..21 {
        let mut survivors = [0; SURVIVOR_BYTES];
        let begin = Instant::now();
        let answer = judge::compare(&question.bytes, question.a.into(), question.b.into(), &mut survivors);
        figures.push(milliseconds(begin.elapsed()));
        std::hint::black_box((answer.is_ok(), survivors));
    }
    median(&figures)
}

/// The medians of a side, one for each question.
fn medians(sides: &[Vec<Times>], place: usize) -> Vec<f64> {
    sides
        .iter()
        .filter_map(|sides| sides.get(place))
        .map(Times::median)
        .collect()
}

/// Median, least and most of figures, as the cells of a table.
fn spread(figures: &[f64], digits: usize) -> String {
    let least = figures.iter().copied().fold(f64::INFINITY, f64::min);
    let most = figures.iter().copied().fold(0.0, f64::max);
    format!("{:.digits$} | {least:.digits$} | {most:.digits$}", median(figures))
}

/// The wrong answers of a side, and its runs without one.
fn failures(sides: &[Vec<Times>], place: usize) -> String {
    let all = || sides.iter().filter_map(|sides| sides.get(place));
    let runs: usize = all().map(|times| times.figures.len()).sum();
    let wrong: usize = all().map(|times| times.wrong).sum();
    let without: usize = all().map(|times| times.no_answer).sum();
    format!("{wrong} of {runs} | {without}")
}

/// A ratio, marked where it is under the one to reach.
fn ratio(times: f64, to_reach: f64) -> String {
    let missed = if times < to_reach { " **missed**" } else { "" };
    format!("{times:.1}{missed}")
}

/// Says on standard error what a classification answers otherwise than the library, line by line, since a reasoner may
/// not do it again.
fn say_difference(reasoner: &Reasoner, stem: &Path, run: &Run, ours: &str, theirs: Option<&str>) {
    let (name, stem) = (reasoner.name(), stem.display());
    let Some(theirs) = theirs else {
        let (status, text) = (run.status, &run.text);
        complain(&format!(
            "{name}, {stem}: no table, status {status:?}; it said:\n{text}"
        ));
        return;
    };
    let only = |here: &str, there: &str| {
        let lines = here.lines().filter(|line| !there.lines().any(|other| other == *line));
        lines.collect::<Vec<_>>().join("; ")
    };
    if ours != theirs {
        complain(&format!(
            "{name}, {stem}: for the library only: {}. For {name} only: {}",
            only(ours, theirs),
            only(theirs, ours)
        ));
    }
}
