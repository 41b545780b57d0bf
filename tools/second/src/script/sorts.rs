//! The sorts of repeats that a script of good form may have: what repeats a term, what names the repeat,
//! and whether a reduction rests on it.

use crate::script::chain::instance;
use crate::script::errors::NoRepeatsReduced;
use crate::script::merged::firsts;
use crate::script::records::{chain, Script, Term, Words, EXTENSION, INNER, KIND, TERM, X, Y};
use crate::script::rules::{Paper, Rules};
use std::collections::BTreeSet;

/// A sort: its name, how many accepted and how many refused cases there have to be, and whether a script
/// is one.
type Sort = (&'static str, [usize; 2], fn(&Script) -> bool);

/// The sorts.
pub const SORTS: [Sort; 8] = [
    ("equal term records", [60, 200], |script| some_repeat(script, is_equal)),
    ("a repeat over another record of the inner term", [30, 100], |script| {
        some_repeat(script, |script, place| !is_equal(script, place))
    }),
    ("a term under three records", [30, 100], has_three),
    ("a repeat that the chain alone names", [30, 100], |script| {
        some_repeat(script, |script, place| names(script, place) == [Namer::Chain].into())
    }),
    ("a repeat that the chain alone names, as y", [10, 30], |script| {
        some_repeat(script, |script, place| {
            names(script, place) == [Namer::Chain].into() && is_y(script, place)
        })
    }),
    ("a repeat that steps off the chain alone name", [6, 20], |script| {
        some_repeat(script, |script, place| names(script, place) == [Namer::Idle].into())
    }),
    ("a repeat of a term that no step has", [12, 40], has_unused),
    ("a reduction by other records of its terms", [25, 10], |script| {
        Paper.run(script) != NoRepeatsReduced.run(script)
    }),
];

/// What names a term record.
#[derive(Clone, Copy, PartialEq, Eq, PartialOrd, Ord)]
enum Namer {
    /// A term, as what its function is applied to.
    Term,
    /// A step of the chain.
    Chain,
    /// A step off the chain.
    Idle,
}

/// Whether a term record is equal to an earlier one.
pub fn is_equal(script: &Script, place: usize) -> bool {
    let own = script.record(place);
    script.records.iter().take(place).any(|earlier| *earlier == own)
}

/// Whether an earlier record has the term of this one.
pub fn is_repeat(script: &Script, place: usize) -> bool {
    let before: Vec<Words> = script.records.iter().take(place + 1).copied().collect();
    firsts(&before).last().is_some_and(|first| usize::from(*first) != place)
}

/// Whether a test holds of some record that repeats a term.
fn some_repeat(script: &Script, test: impl Fn(&Script, usize) -> bool) -> bool {
    let firsts = firsts(&script.records).into_iter().map(usize::from).enumerate();
    let mut repeats = firsts.filter(|(place, first)| place != first);
    repeats.any(|(place, _)| test(script, place))
}

/// Whether some term has three records.
fn has_three(script: &Script) -> bool {
    let mut firsts = firsts(&script.records);
    firsts.sort_unstable();
    firsts.windows(3).any(|three| three.first() == three.last())
}

/// Whether a term is a function of the record at a place.
fn applies_to(record: &Words, place: usize) -> bool {
    record[KIND] == TERM && usize::from(record[INNER]) == place
}

/// Whether an extension names the record at a place.
fn extends_by(record: &Words, place: usize) -> bool {
    record[KIND] == EXTENSION && [record[X], record[Y]].contains(&(place as u16))
}

/// Whether a term or an extension names the record at a place.
pub fn is_named(script: &Script, place: usize) -> bool {
    let mut records = script.records.iter();
    records.any(|record| applies_to(record, place) || extends_by(record, place))
}

/// What names the record at a place.
fn names(script: &Script, place: usize) -> BTreeSet<Namer> {
    let chain = chain(&script.records);
    let namer = |(at, record): (usize, &Words)| match () {
        () if applies_to(record, place) => Some(Namer::Term),
        () if !extends_by(record, place) => None,
        () if chain.contains(&at) => Some(Namer::Chain),
        () => Some(Namer::Idle),
    };
    script.records.iter().enumerate().filter_map(namer).collect()
}

/// Whether an extension has the record at a place for y.
fn is_y(script: &Script, place: usize) -> bool {
    let mut records = script.records.iter();
    records.any(|record| record[KIND] == EXTENSION && usize::from(record[Y]) == place)
}

/// Whether there is a repeat of a term that stands in no literal of a step's column, on the chain or
/// off it, nor inside a term there.
fn has_unused(script: &Script) -> bool {
    let extensions = script.records.iter().filter(|record| record[KIND] == EXTENSION);
    let literals = extensions.flat_map(|record| instance(script, record));
    let terms = literals.flat_map(|literal| literal.arguments);
    let used: BTreeSet<Vec<u16>> = terms.map(|term| script.written_out(term)).collect();
    some_repeat(script, |script, place| {
        let repeated = script.written_out(Term::Record(place as u16));
        !used.iter().any(|term| term.ends_with(&repeated))
    })
}
