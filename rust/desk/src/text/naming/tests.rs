//! Names of any characters come back from their texts, and what is wrong with lines that give one is told.

#![allow(clippy::unwrap_used, clippy::indexing_slicing)]

use crate::text::cursor::Fault;
use crate::text::names::{Names, Sort};
use crate::text::vocabulary::Written;
use crate::text::{assemble, Assembled};
use base::vocabulary::Vocabulary;
use std::time::{Duration, Instant};

/// The text of a vocabulary with its names.
fn show(assembled: &Assembled) -> String {
    let written = Written::new(Vocabulary::read(&assembled.bytes));
    written.with_names(assembled.names.clone()).text()
}

/// The faults of a text, as `desk` tells them.
fn faults(text: &str) -> Vec<String> {
    let told = |fault: &Fault| format!("{}:{}: {}", fault.line, fault.column, fault.message);
    assemble(text).unwrap_err().iter().map(told).collect()
}

/// Characters that mean something in texts, to terminals or to Unicode, and plain ones.
const CHARACTERS: [char; 24] = [
    'a',
    'c',
    'r',
    '7',
    '0',
    ' ',
    '"',
    '\\',
    '-',
    '#',
    ':',
    '{',
    'u',
    '}',
    '\'',
    'ä',
    'ß',
    '€',
    '\u{202e}',
    '\u{200f}',
    '\u{61c}',
    '\u{2028}',
    '\u{1f427}',
    '\u{301}',
];

/// Each name as it comes: texts that cannot be names are told, all others come back, with the records.
#[test]
fn names_of_any_characters_come_back() {
    let (mut state, mut kept, mut told) = (0x5eed_u64, 0, 0);
    let mut below = |bound: usize| {
        state = state.wrapping_mul(6_364_136_223_846_793_005).wrapping_add(1);
        (state >> 33) as usize % bound
    };
    for _ in 0..4_000 {
        let called: String = (0..below(7)).map(|_| CHARACTERS[below(CHARACTERS.len())]).collect();
        let mut names = Names::default();
        names.call(Sort::Name, 2, &called);
        names.call(Sort::Role, 1, &called);
        let text = format!("vocabulary roles 2\nc1\n{}c2\nObjectUnionOf(c1 c2)\n", names.lines());
        let Ok(assembled) = assemble(&text) else {
            assert_eq!(faults(&text).len(), 2, "{called:?}");
            told += 1;
            continue;
        };
        assert_eq!(assembled.names, names);
        let shown = show(&assembled);
        assert!(!shown.chars().any(|c| c != '\n' && crate::display::is_followed(c)));
        let again = assemble(&shown).unwrap();
        assert_eq!((&again.bytes, &again.names), (&assembled.bytes, &names));
        assert_eq!(show(&again), shown);
        // It stands for the name and for the role, too.
        let quoted = crate::text::quotes::write(&called);
        let used = assemble(&format!("{shown}ObjectAllValuesFrom({quoted} {quoted}) -- {quoted}")).unwrap();
        assert_eq!(&used.bytes[32..], &[8, 0, 1, 0, 2, 0, 0, 0]);
        kept += 1;
    }
    assert!(kept > 2_000 && told > 500, "{kept} {told}");
}

/// Lines that give names are no records: those keep their numbers, lines and comments.
#[test]
fn records_have_their_own_lines() {
    let text =
        "\u{feff}vocabulary roles 1\r\nname c2 \"two\"\r\n1: c1 -- one\r\n\r\n  role r0 \"is\" -- role\r\n2: c2\r\n";
    let assembled = assemble(text.trim_start_matches('\u{feff}')).unwrap();
    let places: Vec<_> = assembled
        .lines
        .iter()
        .map(|line| (line.number, line.comment.as_str()))
        .collect();
    assert_eq!(places, [(1, ""), (3, "one"), (6, "")]);
    assert_eq!(assembled.names.term(2), Some("two"));
    assert_eq!(assembled.names.role(0), Some("is"));
    assert_eq!(assembled.bytes.len(), 24);
}

/// A name stands for its label in every place of a term, wherever its line is.
#[test]
fn a_name_stands_for_its_label() {
    let named = "vocabulary roles 1\n\"a b\"\nname c7 \"a b\"\nObjectComplementOf( \"a b\" )\n\
        ObjectSomeValuesFrom(\"is\"\"a b\")\noff SubClassOf(\"a b\" #2) next 3\nrole r0 \"is\"\n";
    let plain =
        "vocabulary roles 1\nc7\nObjectComplementOf(c7)\nObjectSomeValuesFrom(r0 c7)\noff SubClassOf(c7 #2) next 3\n";
    assert_eq!(assemble(named).unwrap().bytes, assemble(plain).unwrap().bytes);
}

/// What follows from a faulty line of a name is left out; the faults of all lines come in order.
#[test]
fn only_what_is_wrong_by_itself_is_told() {
    let text =
        "vocabulary roles 0\nObjectUnoinOf(#3 #3)\nname c1 \"\"\nc1\nObjectComplementOf(\"x\")\nname c1 \"(\"\nc1 c1\n";
    assert_eq!(
        faults(text),
        [
            "2:1: 'ObjectUnoinOf' is not expected here; did you mean 'ObjectUnionOf'?",
            "3:9: a name has at least one character",
            "6:9: a name has no parentheses: it could be taken for a term",
            "7:4: nothing more is expected on this line",
        ]
    );
    // Labels and roles are looked for where the records can be read.
    let unknown = "vocabulary roles 1\nname c9 \"nine\"\nrole r1 \"one\"\nc1\nname c1 \"nine\"\n";
    assert_eq!(
        faults(unknown),
        [
            "2:6: no record is the name c9",
            "3:6: there is no role r1; the header says 1 role",
            "5:9: c9 is called so already, by line 2"
        ]
    );
}

/// Of very many faults those are kept that come first, whichever sort of lines they are of.
#[test]
fn reading_ends_after_so_many_faults() {
    let text = format!("vocabulary roles 0\n{}", "name c1 \"\"\nc1 c1\n".repeat(900));
    let told = faults(&text);
    assert_eq!(told.len(), 1_001);
    assert_eq!(told[0], "2:9: a name has at least one character");
    assert_eq!(told[1_000], "1002:9: reading ends here, after 1,000 faults");
}

/// It takes seconds, also on a machine that does much else; a step for each pair of characters would take hours.
const PATIENCE: Duration = Duration::from_secs(600);

/// Large texts of names, good or bad, are read in time.
#[test]
fn many_names_take_little_time() {
    let start = Instant::now();
    let line = |i: usize| format!("name c{i} \"number {i}, of many\"\n");
    let names: String = (0..30_000).map(line).collect();
    let unknown = "ObjectComplementOf(\"nmuber 15, of manny\")\n".repeat(1_000);
    let told = faults(&format!("vocabulary roles 0\n{names}{unknown}"));
    assert_eq!(told.len(), 1_000);
    assert!(told[0].ends_with("no name is called 'nmuber 15, of manny'; did you mean 'number 15, of many'?"));
    assert_eq!(faults(&format!("vocabulary roles 0\n{names}")).len(), 1_001);
    assert_eq!(
        faults(&format!("vocabulary roles 0\n{}", "nmae c1 x\n".repeat(100_000))).len(),
        1_001
    );
    assert_eq!(
        faults(&format!("vocabulary roles 0\n{}", "\"".repeat(1_000_000))).len(),
        1
    );
    assert!(start.elapsed() < PATIENCE, "{:?}", start.elapsed());
}
