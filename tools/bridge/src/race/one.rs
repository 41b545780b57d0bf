//! One question, one process.

use std::ffi::OsStr;
use std::fmt::Write;
use std::time::Duration;

use base::arguments::Arguments;
use base::{Failure, Status};

use super::{
    call_alone, contest, expected, failures, judged, medians, ours, ratio, reply, spread, Contest, Entry, Times,
};
use crate::customs::{beside, FEWEST_ATOMS};
use crate::output::say_line;
use crate::process;
use crate::reasoner::Reasoner;
use crate::report::median;

/// How much faster the library has to be than FaCT++ and than Konclude, for one question.
const TO_REACH: (f64, f64) = (2.0, 20.0);

/// One question a process: the table by numbers of atoms, and the whole beside what is to be reached.
pub fn one(arguments: &Arguments) -> Result<Status, Failure> {
    let Contest {
        entries,
        reasoners,
        sides,
    } = contest(arguments, run_all)?;
    let calls: Vec<f64> = entries.iter().map(|entry| call_alone(&entry.question)).collect();
    say_line(&by_atoms(&entries, &sides, &calls))?;
    say_line(&whole(&reasoners, &sides, &calls))?;
    Ok(Status::Holds)
}

/// Runs the library's program and each reasoner once.
fn run_all(
    entry: &Entry,
    reasoners: &[Reasoner],
    program: &OsStr,
    limit: Duration,
    sides: &mut [Times],
) -> Result<(), Failure> {
    let (question, expected) = (&entry.question, expected(&entry.question)?);
    let mut sides = sides.iter_mut();
    if let Some(side) = sides.next() {
        let vocabulary = entry.stem.with_extension("vocabulary");
        let run = process::run(ours(program, &vocabulary, question), limit)?;
        side.add(&run, judged(reply(&run), expected));
    }
    for (reasoner, side) in reasoners.iter().zip(sides) {
        let run = process::run(reasoner.query(&beside(&entry.stem, "query")), limit)?;
        side.add(&run, judged(reasoner.reply(&run), expected));
    }
    Ok(())
}

/// The table by numbers of atoms.
fn by_atoms(entries: &[Entry], sides: &[Vec<Times>], calls: &[f64]) -> String {
    let mut table = "| atoms | vocabularies | records | the call alone, ms | library, ms | FaCT++, ms | times | \
                     Konclude, ms | times |\n|---:|---:|---:|---:|---:|---:|---:|---:|---:|\n"
        .to_owned();
    let records: Vec<f64> = entries
        .iter()
        .map(|entry| entry.question.vocabulary.records.len() as f64)
        .collect();
    for atoms in FEWEST_ATOMS..=judge::ATOMS {
        let has = |entry: &Entry| entry.question.vocabulary.atoms().len() == atoms;
        let places: Vec<usize> = (0..)
            .zip(entries)
            .filter(|(_, entry)| has(entry))
            .map(|(place, _)| place)
            .collect();
        let of = |figures: &[f64]| {
            let here = places.iter().filter_map(|place| figures.get(*place).copied());
            median(&here.collect::<Vec<_>>())
        };
        let (library, fact, konclude) = (of(&medians(sides, 0)), of(&medians(sides, 1)), of(&medians(sides, 2)));
        let _ = writeln!(
            table,
            "| {atoms} | {} | {:.0} | {:.4} | {library:.2} | {fact:.2} | {} | {konclude:.2} | {} |",
            places.len(),
            of(&records),
            of(calls),
            ratio(fact / library, TO_REACH.0),
            ratio(konclude / library, TO_REACH.1)
        );
    }
    table
}

/// The table of all vocabularies, beside what is to be reached.
fn whole(reasoners: &[Reasoner], sides: &[Vec<Times>], calls: &[f64]) -> String {
    let library = median(&medians(sides, 0));
    let mut table = format!(
        "| all vocabularies | median, ms | least, ms | most, ms | times the library's | to reach | wrong answers | \
         no answer |\n|---|---:|---:|---:|---:|---:|---:|---:|\n\
         | library, the call alone | {} | {:.3} | | | |\n| library, a process | {} | 1 | | {} |\n",
        spread(calls, 4),
        median(calls) / library,
        spread(&medians(sides, 0), 2),
        failures(sides, 0)
    );
    for ((place, reasoner), to_reach) in (1..).zip(reasoners).zip([TO_REACH.0, TO_REACH.1]) {
        let figures = medians(sides, place);
        let _ = writeln!(
            table,
            "| {} | {} | {} | {to_reach} | {} |",
            reasoner.name(),
            spread(&figures, 2),
            ratio(median(&figures) / library, to_reach),
            failures(sides, place)
        );
    }
    table
}
