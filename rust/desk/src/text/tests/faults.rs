//! The faults of texts: all of them in one run, with what a misspelt word may mean, and none that follows from another.

use super::super::cursor::{quoted, Fault};
use super::super::records::FAULTS;
use super::{assemble, short_texts, Random};
use crate::display::is_followed;
use std::collections::BTreeSet;
use std::time::{Duration, Instant};

/// What is said of a term that no line of a script says.
const UNSAID_IN_SCRIPT: &str =
    "no earlier line says this term; give it a line of its own before, or name a record, as #2";
const NO_NUMBER: &str = "a number from 0 to 65535 is expected here, without leading zeros";
const NO_RECORD: &str =
    "a term (c1, owl:Thing, ObjectUnionOf(..), ..) or a statement (SubClassOf(..)) is expected here";
const NO_TERM: &str = "a term (c1, #7, owl:Thing, ObjectUnionOf(..), ..) is expected here";
const NO_AXIOM: &str = "a statement (SubClassOf(..), EquivalentClasses(..), ..) is expected here";
const TOO_FEW: &str = "a second term is expected here; there are two or more in such a list";
const NO_LINK: &str = "this line is of several statements, which have no other links than the chain's";
const NO_SCRIPT_TERM: &str = "a term (a, f7(a), #2, ..) is expected here";
const NO_MORE: &str = "nothing more is expected on this line";

const TOO_MANY: &str = "this is one record too many; their numbers end at 65535";

/// A text and all its faults: line, column, message.
type Told = (&'static str, &'static [(usize, usize, &'static str)]);

/// Vocabularies without their headers.
const VOCABULARIES: &[Told] = &[
    // Each faulty line is told.
    (
        "zzz\nc1\nc1 (\noff c1\nObjectUnionOf c1",
        &[
            (2, 1, NO_RECORD),
            (4, 4, NO_MORE),
            (5, 5, NO_AXIOM),
            (6, 15, "'(' is expected here"),
        ],
    ),
    // A misspelt word is read as the one that it means.
    (
        "c1\nobjectunionof(c1 C1)\nSubClassOf(c1 ObjectUnionOf(c1 c1))",
        &[
            (
                3,
                1,
                "'objectunionof' is not expected here; did you mean 'ObjectUnionOf'?",
            ),
            (3, 18, "'C1' is not expected here; did you mean 'c1'?"),
        ],
    ),
    (
        "c1\nObjectUnionÔf(c1 c1)\nObjectComplementOf(ObjectUnionOf(c1 c1))",
        &[(
            3,
            1,
            "'ObjectUnionÔf' is not expected here; did you mean 'ObjectUnionOf'?",
        )],
    ),
    (
        "Subclassof(#1 #1) nxet 3",
        &[
            (2, 1, "'Subclassof' is not expected here; did you mean 'SubClassOf'?"),
            (2, 19, "'nxet' is not expected here; did you mean 'next'?"),
        ],
    ),
    // What is wrong after a guess may come from it, and the line may have said another term.
    (
        "ObjectUnoinOf(r0 c1)\nObjectComplementOf(ObjectSomeValuesFrom(r0 #1))",
        &[(
            2,
            1,
            "'ObjectUnoinOf' is not expected here; did you mean 'ObjectUnionOf'?",
        )],
    ),
    // A word that two others are as near to is not guessed; one that cannot stand here is not suggested.
    (
        "owl:othing\nObjectComplementOf(owl:Thing)",
        &[(2, 1, "'owl:othing' is not expected here; did you mean 'owl:Nothing'?")],
    ),
    (
        "ObjectComplementOf(SubclassOf(#1 #1))\nstart 0\nSubClassOf(#1 #1) first 3",
        &[(2, 20, NO_TERM), (3, 1, NO_RECORD), (4, 19, NO_MORE)],
    ),
    // A term that no line says is made. Where a faulty line may have said it, or numbers are off, none is told of that.
    ("ObjectComplementOf(c1)\nObjectComplementOf(c2)\nc1\nc2", &[]),
    ("ObjectUnionOf(c8 zzz)", &[(2, 18, NO_TERM)]),
    (
        "zzz(c1)\nSubClassOf(c1 c2)\n3: c3\nyyy\n9: c4\n10: c5\n12: c6",
        &[
            (2, 1, NO_RECORD),
            (5, 1, NO_RECORD),
            (8, 1, "this line is record 7"),
        ],
    ),
    (
        "c01\n2: ObjectComplementOf(c1)\n3: ObjectComplementOf(owl:Thing)",
        &[(2, 2, NO_NUMBER), (4, 1, "this line is record 4; a term is made before it that no line says")],
    ),
    (
        "c1\nObjectComplementOf(zzz)\n3: SubClassOf(ObjectComplementOf(c1) ObjectUnionOf(c1 c1))\n4: c2",
        &[(3, 20, NO_TERM)],
    ),
    (
        "1: c1\n2: c2\n3: ObjectUnionOf(c1 c3)\n4: SubClassOf(ObjectUnionOf(c1 c2) ObjectUnionOf(c2 c2))\n5: c3",
        &[(4, 1, "this line is record 4; a term is made before it that no line says: c3")],
    ),
    (
        "SubClassOf(zzz)\nObjectComplementOf(c1)\n2: c2\n3: ObjectUnionOf(c2 c3)",
        &[
            (2, 12, NO_TERM),
            (5, 1, "this line is record 6; a term is made before it that no line says: c3"),
        ],
    ),
    (
        "c1\n3: SubClassOf(c2 ObjectUnionOf(c3 c2))\n4: c4",
        &[(
            3,
            1,
            "this line is record 5; 3 terms are made before it that no line says: c2, c3",
        )],
    ),
    // Lists, and axioms.
    (
        "ObjectUnionOf(c1)\nObjectIntersectionOf()\nObjectUnionOf(c1 c2 zzz)\nObjectUnionOf(c1 c2 c3",
        &[
            (2, 17, TOO_FEW),
            (3, 22, NO_TERM),
            (4, 21, NO_TERM),
            (5, 23, "')' is expected here"),
        ],
    ),
    (
        "EquivalentClasses(c1)\nDisjointClasses(c1 c2 c3) next 4\nDisjointClasses(c1 c2) next 4\noff c1\nObjectPropertyDomain(c1 r0)",
        &[
            (2, 21, TOO_FEW),
            (3, 27, NO_LINK),
            (5, 5, NO_AXIOM),
            (6, 22, "a role, as r0, is expected here"),
        ],
    ),
    (
        "EquivalentClases(c1 c2)\nObjectPropertyRnage(r0 c1)\noff Disjointclasses(c1 c2)",
        &[
            (
                2,
                1,
                "'EquivalentClases' is not expected here; did you mean 'EquivalentClasses'?",
            ),
            (
                3,
                1,
                "'ObjectPropertyRnage' is not expected here; did you mean 'ObjectPropertyRange'?",
            ),
            (
                4,
                5,
                "'Disjointclasses' is not expected here; did you mean 'DisjointClasses'?",
            ),
        ],
    ),
    // The number of a line of several statements is that of the first.
    (
        "1: c1\n2: c2\n3: EquivalentClasses(c1 c2)\n5: ObjectPropertyDomain(r0 c1)",
        &[(
            5,
            1,
            "this line is record 7; 2 terms are made before it that no line says",
        )],
    ),
    ("raw 3 0 1\nObjectComplementOf(c1)", &[(2, 10, NO_NUMBER)]),
    (
        "raw 256 0 1 0 0",
        &[(
            2,
            5,
            "five numbers are expected here: kind and second byte, up to 255, A, B and next",
        )],
    ),
    (
        "raw 3 0 1 0 0\nraw 3 0 2 0 1\n3: SubClassOf(c1 c2)",
        &[(
            4,
            1,
            "this line is record 4; a term is made before it that no line says: c2",
        )],
    ),
    ("1: c1 2: c2\n2: SubClassOf(c2 c1)", &[(2, 7, NO_MORE)]),
    // Parentheses left open at the end of a line.
    (
        "c1\nObjectComplementOf(ObjectUnionOf(#1 #1",
        &[(3, 39, "')' is expected here")],
    ),
    (
        "c1\nObjectComplementOf(c1\nSubClassOf(c1 ObjectComplementOf(c1))",
        &[(3, 22, "')' is expected here")],
    ),
    // Numbers: a line is missing, one is too many, one is wrong, one cannot be read, a colon is missing.
    ("1: c1\n3: c2\n4: c3\nc4\n6: c5", &[(3, 1, "this line is record 2")]),
    (
        "1: c1\n1: c2\n2: c3\n4: c4\n6: c5\n7: c6",
        &[(3, 1, "this line is record 2"), (6, 1, "this line is record 5")],
    ),
    (
        "1: c1\n20: c2\n3: c3\n5: zzz",
        &[(3, 1, "this line is record 2"), (5, 4, NO_RECORD)],
    ),
    (
        "70000: c1\n02: c2\nSubClassOf(c1 c2)\n5: c3",
        &[(2, 1, NO_NUMBER), (3, 1, NO_NUMBER), (5, 1, "this line is record 4")],
    ),
    (
        "1 c1\n2 zzz\nSubClassOf(c1 c9)",
        &[(2, 3, "':' is expected here"), (3, 3, "':' is expected here")],
    ),
];

/// The same for scripts.
const SCRIPTS: &[Told] = &[
    (
        "A\nF6(a)\nstrat 0\nextend owner 5 colum 0 x f6(a) Y aa att 1",
        &[
            (2, 1, "'A' is not expected here; did you mean 'a'?"),
            (3, 1, "'F6' is not expected here; did you mean 'f6'?"),
            (4, 1, "'strat' is not expected here; did you mean 'start'?"),
            (5, 16, "'colum' is not expected here; did you mean 'column'?"),
            (5, 32, "'Y' is not expected here; did you mean 'y'?"),
        ],
    ),
    (
        "a\nextend owner 1 column 0 x f1(a) y f1(#1) at 0\nzzz 1\nreduce 0 last 3",
        &[
            (3, 27, UNSAID_IN_SCRIPT),
            (3, 35, UNSAID_IN_SCRIPT),
            (
                4,
                1,
                "a term (a, f7(a), ..) or a step (start, extend, reduce) is expected here",
            ),
            (5, 10, NO_MORE),
        ],
    ),
    (
        "f6(zzz)\nextend owner 1 column 0 x f6(#1) at 0\nextend owner 1 column 0 x a at 0",
        &[(2, 4, NO_SCRIPT_TERM), (4, 27, UNSAID_IN_SCRIPT)],
    ),
    (
        "start zzz\nextend owner 1 column 0 x a at 0",
        &[(2, 7, NO_NUMBER), (3, 27, UNSAID_IN_SCRIPT)],
    ),
    // What a faulty line leaves open may repeat an earlier term, and so may each term over it that names it by its record.
    (
        "a\nf6(a)\nf6(f5(a))\nf7(#3)\nf8(#4)\nextend owner 1 column 0 x f7(f6(a)) y f8(f7(f6(a))) at 0",
        &[(4, 4, UNSAID_IN_SCRIPT)],
    ),
    (
        "a\nf6(a)\nf6(f5(a))\nf7(f6(a))\nextend owner 1 column 0 x f7(#3) at 0",
        &[(4, 4, UNSAID_IN_SCRIPT)],
    ),
    (
        "a\nf6(f5(a))\nf6(a)\nraw 2 7 2 0 0 0 0 0\nextend owner 1 column 0 x f7(f6(a)) y f7(#3) at 0",
        &[(3, 4, UNSAID_IN_SCRIPT)],
    ),
    // Terms of other functions, and over other records, are told.
    (
        "a\nf6(a)\nf6(f5(a))\nf7(#3)\nf8(f6(a))\nextend owner 1 column 0 x f9(#2) y f8(a) at 0",
        &[
            (4, 4, UNSAID_IN_SCRIPT),
            (7, 27, UNSAID_IN_SCRIPT),
            (7, 36, UNSAID_IN_SCRIPT),
        ],
    ),
    // A repeat leaves nothing open.
    (
        "a\nf6(a)\nf6(a)\nf7(#3)\nextend owner 1 column 0 x f7(f6(a)) y f7(#2) at 0\nextend owner 1 column 0 x f7(#4) at 0",
        &[(7, 27, UNSAID_IN_SCRIPT)],
    ),
    (
        "a\nextend owner 1 column 0 x a f1(a) at 0\noff zzz",
        &[
            (3, 29, "'y' or 'at' is expected here"),
            (4, 5, "a step is expected here: start, extend or reduce"),
        ],
    ),
];

/// Whole texts, for their first lines.
const HEADERS: &[Told] = &[
    (
        "vocabluary roles 0\nc1\nzzz",
        &[
            (1, 1, "'vocabluary' is not expected here; did you mean 'vocabulary'?"),
            (3, 1, NO_RECORD),
        ],
    ),
    (
        "Script #1 witin #2 fisrt 3\nzzz",
        &[
            (1, 1, "'Script' is not expected here; did you mean 'script'?"),
            (1, 11, "'witin' is not expected here; did you mean 'within'?"),
            (
                2,
                1,
                "a term (a, f7(a), ..) or a step (start, extend, reduce) is expected here",
            ),
        ],
    ),
    (
        "zzz roles 0\nzzz",
        &[(1, 1, "a text begins with 'vocabulary' or 'script'"), (2, 1, NO_RECORD)],
    ),
    (
        "#1 within #2\nstart x",
        &[(1, 1, "a text begins with 'vocabulary' or 'script'"), (2, 7, NO_NUMBER)],
    ),
    (
        "zzz raw 1 2\nzzz",
        &[(1, 1, "a text begins with 'vocabulary' or 'script'")],
    ),
    (
        "vocabulary zzz 0\nc1\nSubClassOf(c1 c2)",
        &[(1, 12, "'roles' is expected here")],
    ),
    (
        "vocabluary zzz 0\nc1\nSubClassOf(c1 c2)",
        &[(1, 1, "'vocabluary' is not expected here; did you mean 'vocabulary'?")],
    ),
    ("vocabulary roles 0 c1\nSubClassOf(c1 c2)", &[(1, 20, NO_MORE)]),
    (
        "script zzz\na\nzzz",
        &[
            (1, 8, "a term of the vocabulary, as #4, is expected here"),
            (
                3,
                1,
                "a term (a, f7(a), ..) or a step (start, extend, reduce) is expected here",
            ),
        ],
    ),
];

fn faults(text: &str) -> Vec<Fault> {
    assemble(text).err().unwrap_or_default()
}

#[test]
fn all_faults_of_a_text_are_told_and_no_others() {
    let vocabularies = VOCABULARIES
        .iter()
        .map(|(lines, all)| (format!("vocabulary roles 1\n{lines}"), all));
    let scripts = SCRIPTS
        .iter()
        .map(|(lines, all)| (format!("script #1 within #2\n{lines}"), all));
    let headers = HEADERS.iter().map(|(text, all)| (text.to_string(), all));
    for (text, all) in vocabularies.chain(scripts).chain(headers) {
        let all = all
            .iter()
            .map(|(line, column, message)| Fault::at(*line, *column, message));
        assert_eq!(faults(&text), all.collect::<Vec<_>>(), "{text}");
    }
}

/// Texts that have every word, and no fault.
const RIGHT: [&str; 4] = [
    "vocabulary roles 1 first 9
1: c1
2: owl:Thing
3: owl:Nothing
4: ObjectComplementOf(c1)
5: ObjectIntersectionOf(owl:Nothing owl:Thing)
6: ObjectUnionOf(c1 ObjectComplementOf(c1))
7: ObjectSomeValuesFrom(r0 ObjectIntersectionOf(owl:Nothing owl:Thing))
8: ObjectAllValuesFrom(r0 ObjectUnionOf(c1 ObjectComplementOf(c1)))
9: SubClassOf(ObjectAllValuesFrom(r0 #6) ObjectSomeValuesFrom(r0 #5)) next 10
10: off SubClassOf(c1 owl:Thing) next 9
11: raw 4 0 8 0 0
12: ObjectComplementOf(ObjectComplementOf(ObjectAllValuesFrom(r0 #6)))
13: off EquivalentClasses(c1 owl:Thing)
16: DisjointClasses(c1 owl:Nothing c1)
off ObjectPropertyDomain(r0 c1)
ObjectPropertyRange(r0 c1) next 3
",
    "vocabulary raw 16 1 0 0 0\nc1\nObjectComplementOf(c1)\n",
    "script #4 within #3 first 4
1: a
2: f6(a)
3: off reduce 0 next 2
4: start 1 next 5
5: extend owner 5 column 0 x f6(a) y a at 1
6: extend owner 0 column 0 x a at 0 next 7
7: off start 0
8: raw 2 7 2 0 0 0 0 0
9: reduce 2
10: off extend owner 5 column 0 x f7(f6(a)) at 1
11: f6(a)
12: f7(#11)
13: f7(f6(a))
14: off extend owner 5 column 0 x f7(#11) y #12 at 1
",
    "script raw 32 4 3 0 0 0 0 0\n1: a\n2: f6(a)\n",
];

/// The misspellings of a word by a letter: left out, doubled, swapped with the next, of the other case.
fn misspellings(word: &str) -> Vec<String> {
    let letters: Vec<char> = word.chars().collect();
    let mut all = Vec::new();
    for place in 0..letters.len() {
        let mut edit = |change: &dyn Fn(&mut Vec<char>)| {
            let mut letters = letters.clone();
            change(&mut letters);
            all.push(letters.into_iter().collect::<String>());
        };
        edit(&|letters| {
            letters.remove(place);
        });
        edit(&|letters| letters.insert(place, letters[place]));
        edit(&|letters| letters.swap(place, (place + 1).min(word.len() - 1)));
        edit(&|letters| {
            let letter = letters[place];
            letters[place] = if letter.is_lowercase() {
                letter.to_ascii_uppercase()
            } else {
                letter.to_ascii_lowercase()
            };
        });
    }
    all.retain(|misspelt| misspelt != word);
    all
}

/// Where the words of a text begin and end: what begins with a letter, and has letters, digits and colons.
fn words(text: &str) -> Vec<(usize, usize)> {
    let is_part = |c: char| c.is_ascii_alphanumeric() || c == ':';
    let mut words = Vec::new();
    let mut start = 0;
    while let Some(found) = text[start..].find(is_part) {
        start += found;
        let end = text[start..]
            .find(|c| !is_part(c))
            .map_or(text.len(), |end| start + end);
        if text[start..].starts_with(|c: char| c.is_ascii_alphabetic()) {
            words.push((start, end));
        }
        start = end;
    }
    words
}

/// The words of the texts that can be misspelt; those with a number are not among them.
const WORDS: [&str; 28] = [
    "DisjointClasses",
    "EquivalentClasses",
    "ObjectAllValuesFrom",
    "ObjectComplementOf",
    "ObjectIntersectionOf",
    "ObjectPropertyDomain",
    "ObjectPropertyRange",
    "ObjectSomeValuesFrom",
    "ObjectUnionOf",
    "SubClassOf",
    "a",
    "at",
    "column",
    "extend",
    "first",
    "next",
    "off",
    "owl:Nothing",
    "owl:Thing",
    "owner",
    "raw",
    "reduce",
    "roles",
    "script",
    "start",
    "vocabulary",
    "within",
    "x",
];

#[test]
fn a_word_that_is_misspelt_by_a_letter_is_the_one_fault() {
    let (mut seen, mut without) = (BTreeSet::new(), BTreeSet::new());
    for text in RIGHT {
        assert_eq!(faults(text), []);
        for (start, end) in words(text) {
            let word = &text[start..end];
            let is_lettered = word.contains(|c: char| c.is_ascii_digit());
            let misspelt = if is_lettered {
                vec![word.to_uppercase()]
            } else {
                misspellings(word)
            };
            seen.extend(Some(word).filter(|_| !is_lettered));
            for misspelt in misspelt {
                let damaged = [&text[..start], &misspelt, &text[end..]].concat();
                let told = faults(&damaged);
                let line = 1 + text[..start].matches('\n').count();
                assert!(told.len() == 1 && told[0].line == line, "{told:?} in {damaged}");
                if told[0].message != format!("'{misspelt}' is not expected here; did you mean '{word}'?") {
                    without.insert(format!("{word} as '{misspelt}'"));
                }
            }
        }
    }
    assert_eq!(
        seen.into_iter().collect::<Vec<_>>(),
        [WORDS.as_slice(), &["y"]].concat()
    );
    // Words of one letter that are left out.
    assert_eq!(
        without.into_iter().collect::<Vec<_>>(),
        ["a as ''", "x as ''", "y as ''"]
    );
}

/// Words that are near to none.
const NOWHERE: [&str; 6] = ["zzz", "Nowhere", "\u{a7}", "q7", "\u{202e}zzz", "z\u{7}z"];

/// A line with a random word replaced by another, where one can be.
fn with_replaced(random: &mut Random, line: &str, by: impl Fn(&str, &str) -> Option<String>) -> Option<String> {
    let mut all = Vec::new();
    for (start, end) in words(line) {
        let new = by(&line[..start], &line[start..end]);
        all.extend(new.map(|new| [&line[..start], &new, &line[end..]].concat()));
    }
    let chosen = random.below(all.len());
    all.into_iter().nth(chosen)
}

/// A term that no line says, for one that is referred to.
fn unsaid(before: &str, word: &str) -> Option<String> {
    let is_operand = before.ends_with(['(', ' ']) && (before.contains('(') || before.contains(" x"));
    match word {
        "a" if is_operand => Some("f60000(a)".to_string()),
        name if is_operand && name.starts_with('c') && name != "column" => {
            let number = before.split(':').next().and_then(|number| number.parse::<usize>().ok());
            Some(format!("c{}", 60_000 + number.unwrap_or_default()))
        }
        _ => None,
    }
}

#[test]
fn damaged_lines_are_told_and_those_that_refer_to_them_are_not() {
    let mut texts = short_texts();
    texts.retain(|text| !text.lines().next().unwrap().contains("raw"));
    let mut random = Random(0xfa017);
    let (mut unreadable, mut missing) = (0, 0);
    for case in 0..40_000 {
        let text = &texts[random.below(texts.len())];
        let mut lines: Vec<String> = text.lines().map(str::to_string).collect();
        let mut damaged = BTreeSet::new();
        for _ in 0..=random.below(5) {
            let line = random.below(lines.len());
            let nowhere = random.of(&NOWHERE);
            let new = if case % 2 == 0 {
                with_replaced(&mut random, &lines[line], |_, _| Some(nowhere.to_string()))
            } else {
                with_replaced(&mut random, &lines[line], unsaid)
            };
            if let Some(new) = new.filter(|_| !damaged.contains(&(line + 1))) {
                lines[line] = new;
                damaged.insert(line + 1);
            }
        }
        let text = lines.join("\n");
        let told = faults(&text);
        let told_lines: BTreeSet<usize> = told.iter().map(|fault| fault.line).collect();
        if case % 2 == 0 || text.starts_with("script") {
            assert_eq!(told_lines, damaged, "{told:?} in\n{text}");
        } else {
            // The numbers of later lines may be open, so that a term that is made for them shows nowhere.
            assert!(told_lines.is_subset(&damaged), "{told:?} in\n{text}");
            assert_eq!(told_lines.first(), damaged.first(), "{told:?} in\n{text}");
        }
        assert!(
            !told.iter().any(|fault| fault.message.contains(is_followed)),
            "{told:?}"
        );
        *if case % 2 == 0 { &mut unreadable } else { &mut missing } += damaged.len();
    }
    assert!(unreadable > 40_000 && missing > 5_000, "{unreadable} and {missing}");
}

#[test]
fn quoted_words_are_short_and_have_no_character_that_a_terminal_follows() {
    assert_eq!(quoted("roles"), "'roles'");
    assert_eq!(quoted(&"\u{e9}".repeat(40)), format!("'{}'", "\u{e9}".repeat(40)));
    assert_eq!(quoted(&"\u{e9}".repeat(41)), format!("'{}..'", "\u{e9}".repeat(40)));
    let message = "'ro\\u{1b}les' is not expected here; did you mean 'roles'?";
    assert_eq!(faults("vocabulary ro\u{1b}les 0"), [Fault::at(1, 12, message)]);
    let message = "'\\u{202e}within' is not expected here; did you mean 'within'?";
    assert_eq!(faults("script #1 \u{202e}within #2"), [Fault::at(1, 11, message)]);
    let long = format!("vocabulary roles 0\n{}", "ObjectUnionOf".repeat(100));
    assert_eq!(faults(&long), [Fault::at(2, 1, NO_RECORD)]);
}

/// The faults of a text that is large, or of a bad form, and which ends in time.
fn in_time(text: &str) -> Vec<Fault> {
    let start = Instant::now();
    let all = faults(text);
    let took = start.elapsed();
    println!("{} bytes, {} faults, {took:?}", text.len(), all.len());
    // It takes seconds, also on a machine that does much else; a step for each pair of characters would take hours.
    assert!(took < Duration::from_secs(600), "{took:?}");
    all
}

/// A vocabulary of so many equal lines.
fn repeated(line: &str, count: usize) -> String {
    format!("vocabulary roles 0\nc1\n{}", format!("{line}\n").repeat(count))
}

#[test]
fn reading_ends_at_a_thousand_faults() {
    let most = in_time(&repeated("zzz", FAULTS));
    assert!(most.len() == FAULTS && most.iter().all(|fault| fault.message == NO_RECORD));
    for (line, last) in [("x", FAULTS + 3), ("ObjectUnoinOf(c1 C1)", FAULTS / 2 + 3)] {
        let all = in_time(&repeated(line, 500_000));
        let (ends, others) = all.split_last().unwrap();
        assert_eq!(others.len(), FAULTS);
        assert!(others.iter().all(|fault| !fault.message.contains("reading ends")));
        assert_eq!(
            (ends.line, ends.message.as_str()),
            (last, "reading ends here, after 1,000 faults")
        );
    }
}

#[test]
fn a_record_too_many_is_told_once() {
    let most = repeated("ObjectComplementOf(c1)", 65_534);
    assert_eq!(in_time(&most), []);
    assert_eq!(assemble(&most).unwrap().0.len(), 8 * 65_536);
    for more in [1, 2, 1_000] {
        let text = repeated("ObjectComplementOf(c1)", 65_534 + more);
        assert_eq!(in_time(&text), [Fault::at(65_537, 1, TOO_MANY)]);
    }
}

#[test]
fn long_lines_end_in_time() {
    let deep = "terms are nested too deep here; name one by its record, as #7";
    let nested = repeated(&"ObjectComplementOf(".repeat(100_000), 1);
    assert_eq!(
        in_time(&nested),
        [Fault::at(3, 16 * "ObjectComplementOf(".len() + 1, deep)]
    );
    let tree = |depth: usize, leaf: &str| {
        let inner = (1..depth).fold(leaf.to_string(), |term, _| format!("ObjectUnionOf({term} {term})"));
        repeated(&format!("SubClassOf({inner} c1)"), 1)
    };
    let all = in_time(&tree(15, "zzz"));
    assert_eq!((all[0].column, all.len()), (11 + 14 * 14 + 1, 1));
    assert_eq!(in_time(&tree(15, "c9")), []);
    let list = format!(
        "ObjectUnionOf({})",
        (0..60_000).map(|label| format!("c{label} ")).collect::<String>()
    );
    assert_eq!(in_time(&repeated(&list, 1)), [Fault::at(3, 1, TOO_MANY)]);
    assert_eq!(
        in_time(&repeated(&"c1 ".repeat(350_000), 1)),
        [Fault::at(3, 4, NO_MORE)]
    );
    assert_eq!(
        in_time(&repeated(&"raw 3 0 1 0 0 ".repeat(70_000), 1)),
        [Fault::at(3, 15, NO_MORE)]
    );
    assert_eq!(
        in_time(&repeated(&"z".repeat(1 << 20), 1)),
        [Fault::at(3, 1, NO_RECORD)]
    );
    assert_eq!(in_time(&tree(15, "C1")).len(), 2);
}
