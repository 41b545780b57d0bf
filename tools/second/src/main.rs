//! A second implementation of the paper (README.md says which), written from it and not from the library's code, that
//! makes cases and the output expected for them. See README.md.

#[macro_use]
mod wrong;

mod cases;
mod classification;
mod comparison;
mod lent;
mod plan;
mod random;
mod script;
mod select;
mod table;
#[cfg(test)]
mod tests;
mod vocabulary;
mod writer;

use random::Seed;
use std::io::{Read, Write};
use std::process::ExitCode;

/// The exit status where all went well.
const DONE: u8 = 0;
/// The exit status where the cases are not what they are meant to be.
const UNFIT: u8 = 1;
/// The exit status where the command line or a file of cases is malformed, or writing fails.
const MALFORMED: u8 = 2;

/// How the program is called.
const USAGE: &str = "usage: second SUBJECT [SEED] > CASES, \
     or second expect-SUBJECT < CASES > EXPECTED, \
     or second new SUBJECT STORED < CASES > NEW, \
     or second every SUBJECT STEP < CASES > CHOSEN; \
     a SUBJECT is vocabulary, comparison, classification, script or writer";

/// Runs the subcommand that the command line names.
fn main() -> ExitCode {
    let words: Vec<String> = std::env::args().skip(1).collect();
    let status = match words.iter().map(String::as_str).collect::<Vec<_>>()[..] {
        ["vocabulary"] => make_vocabularies(None),
        ["vocabulary", seed] => seeded(seed, make_vocabularies),
        ["expect-vocabulary"] => filter(|bytes| Ok(vocabulary::lines(&vocabulary::decode(bytes)?))),
        ["comparison"] => make_comparisons(None),
        ["comparison", seed] => seeded(seed, make_comparisons),
        ["expect-comparison"] => filter(|bytes| Ok(comparison::lines(&comparison::decode(bytes)?))),
        ["classification"] => make_classifications(None),
        ["classification", seed] => seeded(seed, make_classifications),
        ["expect-classification"] => filter(|bytes| Ok(classification::lines(&classification::decode(bytes)?))),
        ["script"] => make_scripts(None),
        ["script", seed] => seeded(seed, make_scripts),
        ["expect-script"] => filter(|bytes| Ok(script::lines(&script::decode(bytes)?))),
        ["writer"] => make_writings(None),
        ["writer", seed] => seeded(seed, make_writings),
        ["expect-writer"] => filter(|bytes| Ok(writer::lines(&writer::decode(bytes)?))),
        ["new", name, stored] => filter(|bytes| select::new(name, &file(stored)?, bytes)),
        ["every", name, step] => filter(|bytes| select::every(name, step, bytes)),
        _ => complain(USAGE),
    };
    ExitCode::from(status)
}

/// Makes cases by the seed that a word of the command line says.
fn seeded(word: &str, make: fn(Seed) -> u8) -> u8 {
    match word.parse() {
        Ok(seed) => make(Some(seed)),
        Err(_) => complain(USAGE),
    }
}

/// Writes the file of vocabulary cases to standard output, and the table of refusals to standard error.
fn make_vocabularies(seed: Seed) -> u8 {
    let planned = vocabulary::all(seed);
    let mut faults = vocabulary::misses(&planned);
    let cases: Vec<vocabulary::Case> = planned.into_iter().map(|p| p.case).collect();
    let table = vocabulary::Table::of(&cases);
    eprint!("{}", table.text());
    if seed.is_none() {
        let told = vocabulary::told::table(&cases);
        eprint!("{}", told.text());
        faults.extend(told.faults());
    }
    for fault in &faults {
        eprintln!("second: {fault}");
    }
    match vocabulary::encode(&cases) {
        Err(message) => return complain(&message),
        Ok(bytes) if !write_out(&bytes) => return complain("cannot write"),
        Ok(_) => {}
    }
    let never = table.never_met();
    if !never.is_empty() {
        eprintln!("second: refusals that no case meets: {never:?}");
    }
    if never.is_empty() && faults.is_empty() {
        DONE
    } else {
        UNFIT
    }
}

/// The bytes of a file.
fn file(path: &str) -> Result<Vec<u8>, String> {
    std::fs::read(path).map_err(|error| format!("{path}: {error}"))
}

/// Reads a file of cases from standard input, and writes what is made of it: the output expected for
/// it, or some of its cases.
fn filter<T: AsRef<[u8]>>(work: impl Fn(&[u8]) -> Result<T, String>) -> u8 {
    let mut bytes = Vec::new();
    if let Err(error) = std::io::stdin().read_to_end(&mut bytes) {
        return complain(&error.to_string());
    }
    match work(&bytes) {
        Err(message) => complain(&message),
        Ok(made) if write_out(made.as_ref()) => DONE,
        Ok(_) => complain("cannot write"),
    }
}

/// One of two tables of cases: of the stored ones, or of another seed.
fn table_of<P>(cases: &[P], seed: Seed, [stored, seeded]: [fn(&[P]) -> table::Table; 2]) -> table::Table {
    match seed {
        None => stored(cases),
        Some(_) => seeded(cases),
    }
}

/// Writes the file of comparison cases.
fn make_comparisons(seed: Seed) -> u8 {
    let planned = comparison::all(seed);
    let table = table_of(&planned, seed, [comparison::table, comparison::seeded_table]);
    let cases: Vec<comparison::Case> = planned.into_iter().map(|p| p.case).collect();
    make(&table, comparison::encode(&cases))
}

/// Writes the file of classification cases.
fn make_classifications(seed: Seed) -> u8 {
    let planned = classification::all(seed);
    let table = table_of(&planned, seed, [classification::table, classification::seeded_table]);
    let cases: Vec<classification::Case> = planned.into_iter().map(|p| p.case).collect();
    make(&table, classification::encode(&cases))
}

/// Writes the file of script cases.
fn make_scripts(seed: Seed) -> u8 {
    let planned = script::all(seed);
    let table = table_of(&planned, seed, [script::table, script::seeded_table]);
    let cases: Vec<script::Case> = planned.into_iter().map(|p| p.case).collect();
    make(&table, script::encode(&cases))
}

/// Writes the file of writer cases.
fn make_writings(seed: Seed) -> u8 {
    let planned = writer::all(seed);
    let table = table_of(&planned, seed, [writer::table, writer::seeded_table]);
    let cases: Vec<writer::Case> = planned.into_iter().map(|p| p.case).collect();
    make(&table, writer::encode(&cases))
}

/// Writes a file of cases to standard output, and the table of their sorts to standard error.
fn make(table: &table::Table, file: Result<Vec<u8>, String>) -> u8 {
    eprint!("{}", table.text());
    let faults = table.faults();
    for fault in &faults {
        eprintln!("second: {fault}");
    }
    match file {
        Err(message) => complain(&message),
        Ok(bytes) if !write_out(&bytes) => complain("cannot write"),
        Ok(_) if faults.is_empty() => DONE,
        Ok(_) => UNFIT,
    }
}

/// Writes bytes to standard output, and answers whether that went well.
fn write_out(bytes: &[u8]) -> bool {
    let mut out = std::io::stdout().lock();
    out.write_all(bytes).and_then(|()| out.flush()).is_ok()
}

/// Says what is wrong, and answers the exit status.
fn complain(message: &str) -> u8 {
    eprintln!("second: {message}");
    MALFORMED
}
