//! What is said to be wrong with a step is what is wrong with it: mended, the refusal goes; damaged, it is named.

use super::super::detail;
use crate::script::{bytes, read, Words};
use crate::stored::script_cases;
use judge::check_script;
use std::collections::BTreeMap;

/// The parts of a step, in the order in which they are looked at.
#[derive(Clone, Copy, Debug, PartialEq, Eq, PartialOrd, Ord)]
enum Part {
    QueryColumn,
    Owner,
    Column,
    X,
    Y,
    Position,
}

use Part::{Column, Owner, Position, QueryColumn, X, Y};

/// The part that a detail names.
fn part(detail: &str) -> Part {
    if detail.starts_with("a start's query column is 0 or 1") {
        QueryColumn
    } else if detail.contains(", and the step names column ") {
        Column
    } else if detail.contains(", and the step names position ") {
        Position
    } else if detail.starts_with("x is ") || detail.starts_with("the query's columns take x = ") {
        X
    } else if detail.starts_with("y is ") || detail.starts_with("no y stands ") {
        Y
    } else if detail.starts_with("there is no record ")
        || detail.ends_with(", has no columns")
        || detail.ends_with(", is off the chain, so it has no column")
    {
        Owner
    } else {
        panic!("{detail}")
    }
}

/// The word of a part.
fn word(part: Part) -> usize {
    match part {
        QueryColumn | Owner => 1,
        Column => 2,
        X => 3,
        Y => 4,
        Position => 5,
    }
}

/// The values that a detail gives for the part that it names, and the first value past a range that it gives.
fn values(detail: &str) -> (Vec<u16>, Option<u16>) {
    match part(detail) {
        QueryColumn => (vec![0, 1], Some(2)),
        Owner => (vec![0], None),
        X => (vec![1], None),
        Y if detail.starts_with("no y stands ") => (vec![0], None),
        Y => (vec![1], None),
        Column | Position => {
            let (before, _) = detail.split_once(", and the step names ").unwrap();
            let (_, range) = before.rsplit_once(" has ").unwrap();
            let last = range.split(' ').filter_map(|word| word.parse().ok()).max().unwrap();
            ((0..=last).collect(), Some(last + 1))
        }
    }
}

/// The detail of refusal 18 at a record of a script with another word; none where it is not refused so.
fn with(vocabulary: &[u8], script: &[Words], record: usize, word: usize, value: u16) -> (Vec<Words>, Option<String>) {
    let mut script = script.to_vec();
    script[record][word] = value;
    let bytes: Vec<u8> = script.iter().flat_map(bytes).collect();
    let refusal = check_script(vocabulary, &bytes).err();
    let refusal = refusal.filter(|refusal| refusal.rule.number() == 18 && refusal.place as usize == record);
    let words = refusal.map(|refusal| detail(vocabulary, &bytes, refusal).expect("a detail"));
    (script, words)
}

/// Sets the part that a detail names to each value that it gives, after which no part up to that is named, and to the
/// first value past them, after which it is named again. The script with the last good value, and what is said of it.
fn mend(vocabulary: &[u8], script: &[Words], record: usize, said: &str) -> (Vec<Words>, Option<String>) {
    let named = part(said);
    let (good, bad) = values(said);
    if let Some(value) = bad {
        let (_, still) = with(vocabulary, script, record, word(named), value);
        assert_eq!(still.as_deref().map(part), Some(named), "{said}");
    }
    let mut mended = (script.to_vec(), Some(said.to_string()));
    for value in good {
        mended = with(vocabulary, script, record, word(named), value);
        let later = mended.1.as_deref().map(part);
        assert!(later.is_none_or(|later| later > named), "{said}; then {mended:?}");
    }
    mended
}

#[test]
fn mending_what_is_named_mends_the_step() {
    let mut mended: BTreeMap<Part, usize> = BTreeMap::new();
    for (vocabulary, script) in script_cases() {
        let refusal = check_script(&vocabulary, &script).err();
        let Some(refusal) = refusal.filter(|refusal| refusal.rule.number() == 18) else {
            continue;
        };
        let mut said = detail(&vocabulary, &script, refusal);
        let mut script = read(&script);
        while let Some(words) = said {
            *mended.entry(part(&words)).or_default() += 1;
            (script, said) = mend(&vocabulary, &script, refusal.place as usize, &words);
        }
    }
    let expected = [
        (QueryColumn, 64),
        (Owner, 131),
        (Column, 82),
        (X, 165),
        (Y, 109),
        (Position, 111),
    ];
    assert_eq!(mended, BTreeMap::from(expected));
}

/// One word of a step that was right is set to another value.
#[test]
fn what_is_damaged_is_named() {
    let mut seed = 0x9e37_79b9_u32;
    let mut random = |bound: usize| {
        seed = seed.wrapping_mul(1_664_525).wrapping_add(1_013_904_223);
        (seed >> 8) as usize % bound
    };
    let mut named: BTreeMap<(usize, Part), usize> = BTreeMap::new();
    for (vocabulary, script) in script_cases() {
        let verdict = check_script(&vocabulary, &script);
        if verdict.is_err_and(|refusal| !refusal.rule.is_of_chain()) {
            continue;
        }
        let script = read(&script);
        let steps: Vec<usize> = (1..script.len()).filter(|number| script[*number][0] == 4).collect();
        for _ in 0..if steps.is_empty() { 0 } else { 6 } {
            let (record, damaged) = (steps[random(steps.len())], 1 + random(5));
            let value = [random(8), random(65_536)][random(2)] as u16;
            let (_, Some(said)) = with(&vocabulary, &script, record, damaged, value) else {
                continue;
            };
            let part = part(&said);
            // Another owner or column may have no such position, or need no y.
            let fits = match damaged {
                1 => part != QueryColumn,
                2 => matches!(part, Column | Y | Position),
                _ => word(part) == damaged,
            };
            assert!(fits, "w{damaged}: {said}");
            *named.entry((damaged, part)).or_default() += 1;
        }
    }
    for wanted in [(1, Owner), (2, Column), (2, Y), (3, X), (4, Y), (5, Position)] {
        assert!(
            named.get(&wanted).is_some_and(|count| *count >= 10),
            "{wanted:?}: {named:?}"
        );
    }
}
