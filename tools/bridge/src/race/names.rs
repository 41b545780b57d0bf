//! All names of one vocabulary, one process.

use std::ffi::OsStr;
use std::fmt::Write;
use std::process::Command;
use std::time::Duration;

use base::arguments::Arguments;
use base::{Failure, Status};

use super::{contest, failures, medians, ratio, say_difference, spread, Contest, Entry, Times};
use crate::customs::{beside, FEWEST_ATOMS};
use crate::output::say_line;
use crate::process;
use crate::reasoner::Reasoner;
use crate::report::median;
use crate::taxonomy::{self, Taxonomy};

#[cfg(test)]
mod tests;

/// How much faster the library has to be than each reasoner, on each vocabulary.
const TO_REACH: f64 = 1.0;

/// The classification of all names, a process each: the table by numbers of atoms, and the whole beside what is to be
/// reached.
pub fn names(arguments: &Arguments) -> Result<Status, Failure> {
    let Contest {
        entries,
        reasoners,
        sides,
    } = contest(arguments, run_all)?;
    say_line(&by_atoms(&entries, &sides))?;
    say_line(&whole(&entries, &reasoners, &sides))?;
    Ok(Status::Holds)
}

/// Runs the library's program and each reasoner once. What is right goes by the survivors of a comparison.
fn run_all(
    entry: &Entry,
    reasoners: &[Reasoner],
    program: &OsStr,
    limit: Duration,
    sides: &mut [Times],
) -> Result<(), Failure> {
    let vocabulary = &entry.question.vocabulary;
    let expected = Taxonomy::settled(vocabulary)?.to_string();
    let mut sides = sides.iter_mut();
    if let Some(side) = sides.next() {
        let mut command = Command::new(program);
        command.arg(entry.stem.with_extension("vocabulary"));
        let run = process::run(command, limit)?;
        side.add(&run, (run.status == Some(0)).then(|| run.text == expected));
    }
    for (reasoner, side) in reasoners.iter().zip(sides) {
        let stem = beside(&entry.stem, "names");
        reasoner.clear(&stem);
        let run = process::run(reasoner.classify(&stem), limit)?;
        let told = reasoner.taxonomy(&stem, vocabulary).map(|told| told.to_string());
        side.add(&run, told.as_ref().map(|told| *told == expected));
        say_difference(reasoner, &stem, &run, &expected, told.as_deref());
    }
    Ok(())
}

/// The table by numbers of atoms. The times are taken on each vocabulary, so that the least of them shows the worst.
fn by_atoms(entries: &[Entry], sides: &[Vec<Times>]) -> String {
    let mut table = "| atoms | vocabularies | names | records | library, ms | FaCT++, ms | times | least | \
                     Konclude, ms | times | least |\n|---:|---:|---:|---:|---:|---:|---:|---:|---:|---:|---:|\n"
        .to_owned();
    for atoms in FEWEST_ATOMS..=judge::ATOMS {
        let has = |entry: &Entry| entry.question.vocabulary.atoms().len() == atoms;
        let (here, sides): (Vec<&Entry>, Vec<Vec<Times>>) = entries
            .iter()
            .zip(sides)
            .filter(|(entry, _)| has(entry))
            .map(|(entry, sides)| (entry, sides.clone()))
            .unzip();
        if here.is_empty() {
            continue;
        }
        let of = |figure: fn(&Entry) -> usize| here.iter().map(|entry| figure(entry) as f64).collect::<Vec<f64>>();
        let names = of(|entry| taxonomy::names(&entry.question.vocabulary).len());
        let records = of(|entry| entry.question.vocabulary.records.len());
        let _ = writeln!(
            table,
            "| {atoms} | {} | {:.0} | {:.0} | {:.2} | {} | {} |",
            here.len(),
            median(&names),
            median(&records),
            median(&medians(&sides, 0)),
            cells(&sides, 1),
            cells(&sides, 2)
        );
    }
    table
}

/// A reasoner's cells in a row of that table.
fn cells(sides: &[Vec<Times>], place: usize) -> String {
    let times = times(sides, place);
    let (time, usual) = (median(&medians(sides, place)), median(&times));
    format!("{time:.2} | {usual:.1} | {}", ratio(least(&times), TO_REACH))
}

/// How many times the library's time a side takes, for each vocabulary.
fn times(sides: &[Vec<Times>], place: usize) -> Vec<f64> {
    let pairs = medians(sides, place).into_iter().zip(medians(sides, 0));
    pairs.map(|(theirs, ours)| theirs / ours).collect()
}

fn least(figures: &[f64]) -> f64 {
    figures.iter().copied().fold(f64::INFINITY, f64::min)
}

/// The table of all vocabularies, beside what is to be reached; the worst one is named.
fn whole(entries: &[Entry], reasoners: &[Reasoner], sides: &[Vec<Times>]) -> String {
    let mut table = format!(
        "| all vocabularies | median, ms | least, ms | most, ms | times the library's | least (to reach: over \
         {TO_REACH}) | on | wrong tables | no answer |\n|---|---:|---:|---:|---:|---:|---|---:|---:|\n\
         | library | {} | 1 | | | {} |\n",
        spread(&medians(sides, 0), 2),
        failures(sides, 0)
    );
    for (place, reasoner) in (1..).zip(reasoners) {
        let times = times(sides, place);
        let least = least(&times);
        let worst = entries.iter().zip(&times).find(|(_, figure)| **figure <= least);
        let name = worst.and_then(|(entry, _)| entry.stem.file_name()).unwrap_or_default();
        let _ = writeln!(
            table,
            "| {} | {} | {:.1} | {} | {} | {} |",
            reasoner.name(),
            spread(&medians(sides, place), 2),
            median(&times),
            ratio(least, TO_REACH),
            name.to_string_lossy(),
            failures(sides, place)
        );
    }
    table
}
