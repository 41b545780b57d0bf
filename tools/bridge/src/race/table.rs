//! A table of questions over one vocabulary.

use std::fmt::Write;
use std::path::Path;
use std::process::Command;
use std::time::Duration;

use base::arguments::Arguments;
use base::vocabulary::Vocabulary;
use base::{Failure, Status};
use judge::Verdict;

use super::{entries, failures, medians, read_pair, say_difference, spread, Entry, Times};
use crate::commands::REPEATS;
use crate::customs::{beside, PAIRS};
use crate::files::read;
use crate::output::say_line;
use crate::process;
use crate::question::compare;
use crate::reasoner::Reasoner;
use crate::report::median;

/// The answers to the pairs in a file, a line for each that is equal: all calls of one process.
pub fn answer_pairs(vocabulary: &Vocabulary, pairs: &Path) -> Result<(), Failure> {
    let bytes = vocabulary.bytes();
    for (a, b) in read_pairs(pairs)? {
        if compare(&bytes, a, b)?.0.verdict == Verdict::Equal {
            say_line(&format!("{a} {b}"))?;
        }
    }
    Ok(())
}

fn read_pairs(path: &Path) -> Result<Vec<(u32, u32)>, Failure> {
    let no_pair = |line: &str| Failure::new(Status::Refused, format!("{}: no pair: {line}", path.display()));
    read(path)?
        .lines()
        .map(|line| read_pair(line).ok_or_else(|| no_pair(line)))
        .collect()
}

/// The figures of a table: ours for some pairs and for all, and the reasoners'.
#[derive(Clone, Default)]
struct TableTimes {
    some: Times,
    all: Times,
    classified: Vec<Times>,
}

/// Tables of questions over one vocabulary: all calls in one process beside one classification.
pub fn table(arguments: &Arguments) -> Result<Status, Failure> {
    let [directory] = arguments.words(["DIRECTORY"])?;
    let (repeats, limit) = (arguments.number(REPEATS.name, 5)?, process::limit(arguments, 60)?);
    let reasoners = Reasoner::both(arguments)?;
    let entries = entries(Path::new(directory))?;
    let start = TableTimes {
        classified: vec![Times::default(); reasoners.len()],
        ..TableTimes::default()
    };
    let mut times = vec![start; entries.len()];
    for _ in 0..repeats {
        for (entry, times) in entries.iter().zip(&mut times) {
            run_table(entry, &reasoners, limit, times)?;
        }
    }
    say_line(&written(&entries, &reasoners, &times)?)?;
    Ok(Status::Holds)
}

fn run_table(entry: &Entry, reasoners: &[Reasoner], limit: Duration, times: &mut TableTimes) -> Result<(), Failure> {
    let program = std::env::current_exe().map_err(|error| process::failed(&error))?;
    let answer = |ending: &str| {
        let mut command = Command::new(&program);
        command
            .arg("answer")
            .arg(entry.stem.with_extension("vocabulary"))
            .arg(entry.stem.with_extension(ending));
        process::run(command, limit)
    };
    let some = answer("some")?;
    times.some.add(&some, (some.status == Some(0)).then_some(true));
    let all = answer("all")?;
    times.all.add(&all, (all.status == Some(0)).then_some(true));
    for (reasoner, side) in reasoners.iter().zip(&mut times.classified) {
        let stem = beside(&entry.stem, "table");
        reasoner.clear(&stem);
        let run = process::run(reasoner.classify(&stem), limit)?;
        let told = reasoner.groups(&stem).map(|groups| pairs_of(&groups));
        side.add(&run, told.as_ref().map(|told| *told == all.text));
        say_difference(reasoner, &stem, &run, &all.text, told.as_deref());
    }
    Ok(())
}

/// The equal pairs that groups of equal terms say, as `answer` prints them.
fn pairs_of(groups: &[Vec<u16>]) -> String {
    let mut pairs: Vec<(u16, u16)> = Vec::new();
    for group in groups {
        pairs.extend(
            group
                .iter()
                .flat_map(|a| group.iter().filter(move |b| a < b).map(|b| (*a, *b))),
        );
    }
    pairs.sort_unstable();
    pairs.iter().map(|(a, b)| format!("{a} {b}\n")).collect()
}

/// The table of the figures.
fn written(entries: &[Entry], reasoners: &[Reasoner], times: &[TableTimes]) -> Result<String, Failure> {
    let numbers = entries
        .iter()
        .map(|entry| Ok(read_pairs(&entry.stem.with_extension("all"))?.len() as f64));
    let pairs = median(&numbers.collect::<Result<Vec<f64>, Failure>>()?);
    let column = |pick: fn(&TableTimes) -> &Times| vec_of(times, |times| Some(pick(times)));
    let (some, all) = (column(|times| &times.some), column(|times| &times.all));
    let (some_median, all_median) = (median(&medians(&some, 0)), median(&medians(&all, 0)));
    let mut table = format!(
        "| a table over one vocabulary | median, ms | least, ms | most, ms | times {PAIRS} pairs | times all pairs | \
         wrong tables | no answer |\n|---|---:|---:|---:|---:|---:|---:|---:|\n"
    );
    let rows = [
        (format!("library, {PAIRS} pairs"), some),
        (format!("library, all pairs (median {pairs:.0})"), all),
    ];
    let theirs = (0..).zip(reasoners).map(|(place, reasoner)| {
        (
            format!("{}, classification", reasoner.name()),
            vec_of(times, |times| times.classified.get(place)),
        )
    });
    for (name, sides) in rows.into_iter().chain(theirs) {
        let figures = medians(&sides, 0);
        let _ = writeln!(
            table,
            "| {name} | {} | {:.2} | {:.2} | {} |",
            spread(&figures, 2),
            median(&figures) / some_median,
            median(&figures) / all_median,
            failures(&sides, 0)
        );
    }
    Ok(table)
}

/// One side of the tables, in the shape that the other functions take.
fn vec_of<'t>(times: &'t [TableTimes], pick: impl Fn(&'t TableTimes) -> Option<&'t Times>) -> Vec<Vec<Times>> {
    times
        .iter()
        .map(|times| pick(times).cloned().into_iter().collect())
        .collect()
}
