//! A detail of each sort, word by word, and whether it is the vocabulary that a reference does not fit.

use super::super::{detail, is_foreign, vocabulary_detail};
use crate::text;
use judge::{check_script, check_vocabulary, compare, record, Refusal};

/// Two names, restrictions of each sort, every other sort of term, and a statement on the chain and one off it.
const V: &str = "vocabulary roles 1
c1
c2
ObjectSomeValuesFrom(r0 c1)
ObjectAllValuesFrom(r0 c1)
ObjectIntersectionOf(c1 c2)
ObjectUnionOf(c1 c2)
ObjectComplementOf(c1)
owl:Thing
owl:Nothing
SubClassOf(c1 c2)
off SubClassOf(c2 c1)
";

fn assembled(text: &str) -> Vec<u8> {
    text::assemble(text)
        .unwrap_or_else(|fault| panic!("{text}: {fault:?}"))
        .bytes
}

/// The detail of a script for V whose lines after the header these are, which is refused by this number at this record.
fn said(lines: &str, number: u8, place: u32) -> (String, bool) {
    let (vocabulary, script) = (assembled(V), assembled(&format!("script {lines}")));
    let refusal = check_script(&vocabulary, &script).expect_err("a refusal");
    assert_eq!((refusal.rule.number(), refusal.place), (number, place), "{lines}");
    let words = detail(&vocabulary, &script, refusal).expect("a detail");
    (words, is_foreign(&vocabulary, &script, refusal))
}

/// A detail, and whether it is that a reference does not fit the vocabulary.
type Expected = (&'static str, bool);

const fn own(words: &'static str) -> Expected {
    (words, false)
}

const fn foreign(words: &'static str) -> Expected {
    (words, true)
}

/// Whether what was said is what was expected.
fn assert_said((words, is_foreign): (String, bool), expected: Expected) {
    assert_eq!((words.as_str(), is_foreign), expected);
}

/// The detail of an extension, which is record 4 of a script of four records more: a start after it is record 5.
fn extended(extension: &str) -> (String, bool) {
    let lines = format!("#5 within #6\na\nf3(a)\nstart 0\nraw 4 {extension} 0 0\nstart 0\n");
    said(&lines, 18, 4)
}

/// Owner, column, x, y and position of an extension.
const STEPS: &[(&str, Expected)] = &[
    (
        "99 0 1 0 0",
        foreign("there is no record 99; the vocabulary ends at record 11"),
    ),
    ("2 0 1 0 0", foreign("record 2, a name, has no columns")),
    (
        "11 0 1 0 0",
        foreign("record 11, a statement, is off the chain, so it has no column"),
    ),
    (
        "6 3 1 0 0",
        foreign("record 6, a union, has columns 0 to 2, and the step names column 3"),
    ),
    (
        "7 2 1 0 0",
        foreign("record 7, a complement, has columns 0 and 1, and the step names column 2"),
    ),
    (
        "8 1 1 0 0",
        foreign("record 8, top, has column 0 only, and the step names column 1"),
    ),
    (
        "9 1 1 0 0",
        foreign("record 9, bottom, has column 0 only, and the step names column 1"),
    ),
    (
        "10 9 1 0 0",
        foreign("record 10, a statement, has column 0 only, and the step names column 9"),
    ),
    (
        "3 3 1 0 0",
        foreign("record 3, a some restriction, has columns 0 to 2, and the step names column 3"),
    ),
    (
        "4 3 1 0 0",
        foreign("record 4, an all restriction, has columns 0 to 2, and the step names column 3"),
    ),
    (
        "5 3 1 0 0",
        foreign("record 5, an intersection, has columns 0 to 2, and the step names column 3"),
    ),
    (
        "0 2 1 0 0",
        own("the query has columns 0 and 1, and the step names column 2"),
    ),
    (
        "6 0 0 0 0",
        own("x is script record 0, the header, and no earlier term record"),
    ),
    (
        "6 0 3 0 0",
        own("x is script record 3, a start, and no earlier term record"),
    ),
    ("6 0 4 0 0", own("x is script record 4, which is not before this one")),
    ("6 0 5 0 0", own("x is script record 5, which is not before this one")),
    (
        "6 0 6 0 0",
        own("x is script record 6, and the script ends at record 5"),
    ),
    (
        "0 0 2 0 0",
        own("the query's columns take x = script record 1, the constant a, and the step gives script record 2"),
    ),
    ("3 2 1 0 0", foreign("y is missing: column 2 of record 3 has a y")),
    (
        "4 2 1 3 0",
        own("y is script record 3, a start, and no earlier term record"),
    ),
    ("4 2 1 5 0", own("y is script record 5, which is not before this one")),
    (
        "3 0 1 2 0",
        foreign("no y stands in column 0 of record 3, and the step gives script record 2 for it"),
    ),
    (
        "0 1 1 2 0",
        own("no y stands in column 1 of the query, and the step gives script record 2 for it"),
    ),
    (
        "5 2 1 0 3",
        foreign("column 2 of record 5, {¬C5(x), C1(x), C2(x)}, has positions 0 to 2, and the step names position 3"),
    ),
    (
        "3 0 1 0 2",
        foreign("column 0 of record 3, {C3(x), ¬r0(x,f3(x))}, has positions 0 and 1, and the step names position 2"),
    ),
    (
        "4 2 1 2 3",
        foreign("column 2 of record 4, {C4(x), r0(x,y), ¬C1(y)}, has positions 0 to 2, and the step names position 3"),
    ),
    (
        "8 0 1 0 1",
        foreign("column 0 of record 8, {¬C8(x)}, has position 0 only, and the step names position 1"),
    ),
    (
        "0 1 1 0 1",
        own("column 1 of the query, {C6(a)}, has position 0 only, and the step names position 1"),
    ),
];

#[test]
fn steps() {
    let start = said("#5 within #6\na\nstart 7\n", 18, 2);
    assert_said(start, own("a start's query column is 0 or 1, and this is 7"));
    for (extension, expected) in STEPS {
        assert_said(extended(extension), *expected);
    }
}

/// The lines after the header, and the place.
const TERMS: &[(&str, u32, Expected)] = &[
    ("", 1, own("there is no script record 1; it has to be the constant a")),
    ("start 0\n", 1, own("it is a start, and has to be the constant a")),
    (
        "f3(#1)\n",
        1,
        own("it is a function term, and has to be the constant a"),
    ),
    (
        "a\nf3(a)\na\n",
        3,
        own("it is a second constant; the constant a is script record 1 only"),
    ),
    (
        "a\nf2(a)\n",
        2,
        foreign("record 2, a name, has no function; only restrictions (kinds 7 and 8) have one"),
    ),
    (
        "a\nf0(a)\n",
        2,
        foreign("record 0, the header, has no function; only restrictions (kinds 7 and 8) have one"),
    ),
    (
        "a\nf99(a)\n",
        2,
        foreign("there is no record 99; the vocabulary ends at record 11"),
    ),
    (
        "a\nstart 0\nf3(#2)\n",
        3,
        own("the inner term is script record 2, a start, and no earlier term record"),
    ),
    (
        "a\nf3(#0)\n",
        2,
        own("the inner term is script record 0, the header, and no earlier term record"),
    ),
    (
        "a\nf3(#2)\n",
        2,
        own("the inner term is script record 2, which is not before this one"),
    ),
    (
        "a\nf3(#7)\n",
        2,
        own("the inner term is script record 7, and the script ends at record 2"),
    ),
    (
        "a\nf3(a)\nf3(a)\nf4(#3)\na\n",
        5,
        own("it is a second constant; the constant a is script record 1 only"),
    ),
    (
        "a\nf3(a)\nf3(a)\nf2(#3)\n",
        4,
        foreign("record 2, a name, has no function; only restrictions (kinds 7 and 8) have one"),
    ),
];

#[test]
fn terms() {
    for (lines, place, expected) in TERMS {
        assert_said(said(&format!("#5 within #6\n{lines}"), 17, *place), *expected);
    }
}

/// The lines, the number and the place.
const OTHER_RECORDS: &[(&str, u8, u32, Expected)] = &[
    (
        "#0 within #6\na\n",
        10,
        0,
        foreign("the query's A is record 0, the header, and no term"),
    ),
    (
        "#5 within #10\na\n",
        10,
        10,
        foreign("the query's B is record 10, a statement, and no term"),
    ),
    (
        "#12 within #10\na\n",
        10,
        12,
        foreign("the query's A is record 12, and the vocabulary ends at record 11"),
    ),
    ("raw 33 5 6 0 1 0 0 0\na\n", 14, 0, own("w0 is 33, and a header has 32")),
    ("raw 32 5 6 0 0 0 9 0\na\n", 14, 0, own("w6 is 9, and a header has 0")),
    (
        "#5 within #6\na\nraw 6 0 0 0 0 0 0 0\n",
        15,
        2,
        own("the kind is 6, and records have 1 to 5"),
    ),
    (
        "#5 within #6\nraw 1 0 0 0 0 0 0 1\n",
        16,
        1,
        own("w7 is 1, and the constant uses w0 only"),
    ),
    (
        "#5 within #6\na\nraw 2 3 1 4 0 0 0 0\n",
        16,
        2,
        own("w3 is 4, and a function term uses w0 to w2 only"),
    ),
    (
        "#5 within #6\na\nraw 3 0 5 0 0 0 0 0\n",
        16,
        2,
        own("w2 is 5, and a start uses w0, w1 and w7 only"),
    ),
    (
        "#5 within #6\na\nraw 4 5 0 1 0 0 8 0\n",
        16,
        2,
        own("w6 is 8, and an extension uses w0 to w5 and w7 only"),
    ),
    (
        "#5 within #6\na\nraw 5 0 0 0 0 0 1 0\n",
        16,
        2,
        own("w6 is 1, and a reduction uses w0, w1 and w7 only"),
    ),
    (
        "#5 within #6 first 1\na\nstart 0\n",
        19,
        0,
        own("the first step is script record 1, the constant a, and no step"),
    ),
    (
        "#5 within #6 first 9\na\nstart 0\n",
        19,
        0,
        own("the first step is script record 9, and the script ends at record 2"),
    ),
    (
        "#5 within #6\na\nstart 0 next 2\n",
        19,
        2,
        own("its next is script record 2, which is not after this one"),
    ),
    (
        "#5 within #6\na\nstart 0 next 3\nf3(a)\n",
        19,
        2,
        own("its next is script record 3, a function term, and no step"),
    ),
];

#[test]
fn other_records_of_scripts() {
    for (lines, number, place, expected) in OTHER_RECORDS {
        assert_said(said(lines, *number, *place), *expected);
    }
}

/// The same of chains.
const CHAINS: &[(&str, u8, u32, Expected)] = &[
    (
        "#5 within #6\na\nreduce 0\n",
        20,
        2,
        own("the first step of the chain has to be a start"),
    ),
    (
        "#5 within #6\na\nstart 0\nextend owner 0 column 0 x a at 0\n",
        21,
        3,
        foreign("¬C5(a) at the position is not the complement of the goal ¬C5(a): their signs are the same"),
    ),
    (
        "#5 within #6\na\nstart 0\nreduce 0\n",
        22,
        3,
        own("frame 0 is the last, and a reduction needs a frame below it"),
    ),
    ("#5 within #6\na\nstart 0\n", 24, 2, own("still to be closed: ¬C5(a)")),
    (
        "#5 within #5\na\nstart 0\nextend owner 0 column 1 x a at 0\nreduce 0\n",
        25,
        4,
        own("all was closed by step 2"),
    ),
];

#[test]
fn chains() {
    for (lines, number, place, expected) in CHAINS {
        assert_said(said(lines, *number, *place), *expected);
    }
}

/// The detail of a vocabulary, which is refused by this number at this place.
fn of_vocabulary(text: &str, number: u8, place: u32) -> String {
    let vocabulary = assembled(&format!("vocabulary {text}"));
    let refusal = check_vocabulary(&vocabulary).expect_err("a refusal");
    assert_eq!((refusal.rule.number(), refusal.place), (number, place), "{text}");
    vocabulary_detail(&vocabulary, refusal).expect("a detail")
}

/// The lines of a vocabulary, the number and the place.
const VOCABULARIES: &[(&str, u8, u32, &str)] = &[
    ("raw 17 1 0 0 0\n", 2, 0, "the kind is 17, and a header has 16"),
    (
        "raw 16 0 0 0 0\n",
        2,
        0,
        "the second byte is 0, and a header has 1 or 2",
    ),
    (
        "raw 16 3 0 0 0\n",
        2,
        0,
        "the second byte is 3, and a header has 1 or 2",
    ),
    ("roles 65\n", 2, 0, "the number of roles is 65, and the most is 64"),
    ("raw 16 1 0 0 5\n", 2, 0, "next is 5, and a header of edition 1 has 0"),
    ("raw 16 2 0 0 5\n", 28, 0, "the header says 5 atoms; there are 0"),
    ("raw 16 2 0 0 0\nc1\n", 28, 1, "the header says 0 atoms; there is 1"),
    (
        "raw 16 2 0 1 1\nc1\nObjectAllValuesFrom(r0 c1)\n",
        28,
        2,
        "the header says 1 atom; there are 2",
    ),
    (
        "roles 0\nraw 10 0 0 0 0\n",
        3,
        1,
        "the kind is 10, and records have 1 to 9",
    ),
    (
        "roles 0\nraw 1 7 0 0 0\n",
        3,
        1,
        "the second byte is 7, and records have 0",
    ),
    ("roles 0\nraw 3 0 1 2 0\n", 4, 1, "B is 2, and a name uses A only"),
    ("roles 0\nraw 1 0 3 0 0\n", 4, 1, "A is 3, and top uses no field"),
    (
        "roles 0\nc1\nraw 5 0 1 1 9\n",
        4,
        2,
        "next is 9, and an intersection uses A and B only",
    ),
    (
        "roles 0\nc1\nObjectUnionOf(#1 #2)\n",
        5,
        2,
        "B is record 2, which is not before this one",
    ),
    (
        "roles 0\nc1\nSubClassOf(#1 #1)\nObjectComplementOf(#2)\n",
        5,
        3,
        "A is record 2, a statement, and no term",
    ),
    (
        "roles 0\nc1\nObjectComplementOf(#0)\n",
        5,
        2,
        "A is record 0, the header, and no term",
    ),
    (
        "roles 1\nc1\nObjectSomeValuesFrom(r0 #9)\n",
        5,
        2,
        "B is record 9, and the vocabulary ends at record 2",
    ),
    (
        "roles 2\nc1\nObjectAllValuesFrom(r3 c1)\n",
        6,
        2,
        "the role is 3, and the header has 2 roles",
    ),
    (
        "roles 0\nc4\nc5\nc4\nc5\n",
        7,
        3,
        "the label is 4, and record 1 has it first",
    ),
    (
        "roles 0 first 1\nc1\nSubClassOf(c1 c1)\n",
        8,
        0,
        "the first statement is record 1, a name, and no statement",
    ),
    (
        "roles 0\nc1\nSubClassOf(c1 c1) next 2\n",
        8,
        2,
        "its next is record 2, which is not after this one",
    ),
    (
        "roles 0\nc1\noff SubClassOf(c1 c1) next 8\n",
        8,
        2,
        "its next is record 8, and the vocabulary ends at record 2",
    ),
];

#[test]
fn vocabularies() {
    for (text, number, place, expected) in VOCABULARIES {
        assert_eq!(of_vocabulary(text, *number, *place), *expected);
    }
}

#[test]
fn numbers_that_were_asked_for() {
    let vocabulary = assembled(V);
    let asked = |refusal: Refusal| vocabulary_detail(&vocabulary, refusal);
    let of_compare = |a, b| compare(&vocabulary, a, b, &mut [0; 512]).expect_err("10");
    assert_eq!(asked(of_compare(0, 1)).unwrap(), "record 0 is the header");
    assert_eq!(asked(of_compare(1, 11)).unwrap(), "record 11 is a statement");
    let none = asked(of_compare(1, 65_537)).unwrap();
    assert_eq!(none, "there is no record 65537; the vocabulary ends at record 11");
    let past = record(&vocabulary, 12).expect_err("9");
    assert_eq!(asked(past).unwrap(), "the vocabulary ends at record 11");
}

#[test]
fn lengths_have_none() {
    for script in [&[][..], &[32; 17]] {
        let refusal = check_script(&assembled(V), script).expect_err("13");
        assert_eq!(refusal.rule.number(), 13);
        assert_eq!(detail(&assembled(V), script, refusal), None);
        assert!(!is_foreign(&assembled(V), script, refusal));
    }
    let refusal = check_vocabulary(&[]).expect_err("1");
    assert_eq!(vocabulary_detail(&[], refusal), None);
}
