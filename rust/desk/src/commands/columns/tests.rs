//! The columns that are listed are those that the library knows.
#![allow(clippy::unwrap_used, clippy::expect_used, clippy::panic, clippy::indexing_slicing)]

use super::{existing, listed, Owner};
use crate::files::Name;
use crate::input::Input;
use crate::script::{bytes, Entry, Extension, HEADER_WORD};
use crate::stored::vocabularies;
use crate::text::names::Names;
use crate::text::vocabulary::Written;
use crate::text::{self, Assembled, Kind};
use base::vocabulary::Vocabulary;
use base::Status;
use judge::{check_script, check_vocabulary};

/// Whether the library knows what an extension names: it does not refuse it by 18. `term` is any term of the vocabulary.
fn is_known(vocabulary: &[u8], term: u16, extension: Extension) -> bool {
    let script = [
        [HEADER_WORD, term, term, 2, 0, 0, 0, 0],
        Entry::Constant.words(0),
        Entry::Start(0).words(3),
        Entry::Extend(extension).words(0),
    ];
    let script: Vec<u8> = script.iter().flat_map(bytes).collect();
    match check_script(vocabulary, &script) {
        Err(refusal) if refusal.rule.number() == 18 => {
            assert_eq!(refusal.place, 3);
            false
        }
        Err(refusal) => {
            assert!(refusal.rule.is_of_chain(), "{refusal}");
            true
        }
        Ok(_) => true,
    }
}

/// Counts the columns and positions of an owner that are listed, each of which the library knows, and nothing beside.
fn check_owner(vocabulary: &[u8], term: u16, owner: &Owner) -> [usize; 2] {
    let known = |column: usize, y: u16, position: usize| {
        let extension = Extension {
            owner: owner.number,
            column: column as u16,
            x: 1,
            y,
            position: position as u16,
        };
        is_known(vocabulary, term, extension)
    };
    let mut positions = 0;
    for (number, column) in owner.columns.iter().enumerate() {
        let (y, other) = if column.y { (1, 0) } else { (0, 1) };
        let count = column.literals.len();
        for position in 0..count {
            assert!(known(number, y, position));
            positions += 1;
        }
        assert!(!known(number, y, count));
        assert!(!known(number, other, 0));
    }
    let next = owner.columns.len();
    assert!(!known(next, 0, 0) && !known(next, 1, 0));
    [next, positions]
}

#[test]
fn the_columns_are_those_that_the_library_knows() {
    let (mut owners, mut without, mut columns, mut positions, mut with_y) = (0, 0, 0, 0, 0);
    for bytes in vocabularies() {
        if check_vocabulary(&bytes).is_err() {
            continue;
        }
        let written = Written::new(Vocabulary::read(&bytes));
        let chained = written.vocabulary().chained();
        let terms = written.vocabulary().numbered().find(|(_, record)| record.is_term());
        let Some((term, _)) = terms else {
            continue;
        };
        for number in 0..written.vocabulary().records.len() as u16 {
            let owner = Owner::new(&written, &chained, number);
            let [own_columns, own_positions] = check_owner(&bytes, term as u16, &owner);
            owners += 1;
            without += usize::from(own_columns == 0);
            with_y += owner.columns.iter().filter(|column| column.y).count();
            columns += own_columns;
            positions += own_positions;
        }
    }
    let counts = [owners, without, columns, positions, with_y];
    assert_eq!(counts, [35_674, 13_234, 53_048, 114_315, 8_311]);
}

/// A vocabulary of this text, with its words.
fn of(text: &str) -> (Input, Written) {
    let assembled = text::assemble(text).unwrap();
    let comments = assembled.lines.iter().map(|line| line.comment.clone()).collect();
    let written = Written::new(Vocabulary::read(&assembled.bytes)).with_words(comments);
    (given(assembled), written)
}

fn given(assembled: Assembled) -> Input {
    Input::assembled(&Name::new("v.text".as_ref()), None, assembled)
}

const V: &str = "vocabulary roles 1
c1 -- cat
ObjectSomeValuesFrom(r0 c1) -- cat owner
ObjectAllValuesFrom(r0 c1)
ObjectIntersectionOf(#2 #3)
ObjectUnionOf(#2 #2)
ObjectComplementOf(c1)
owl:Thing
owl:Nothing
SubClassOf(c1 #2) -- cats own cats
off SubClassOf(c1 c1)
";

#[test]
fn every_sort_of_owner_is_listed() {
    let (input, written) = of(&V
        .lines()
        .map(|line| format!("{}\n", line.split(" --").next().unwrap()))
        .collect::<String>());
    let report = listed(&input, &written, (0..=10).collect());
    assert_eq!(report.status, Status::Holds);
    let expected = "\
owner 0: the query, A within B
  column 0: {¬CA(a)}
  column 1: {CB(a)}
record 1: c1
  no columns: it is a name
record 2: ObjectSomeValuesFrom(r0 c1)
  column 0: {C2(x), ¬r0(x,f2(x))}
  column 1: {C2(x), ¬C1(f2(x))}
  column 2: {¬C2(x), r0(x,y), C1(y)}, with y
record 3: ObjectAllValuesFrom(r0 c1)
  column 0: {¬C3(x), ¬r0(x,f3(x))}
  column 1: {¬C3(x), C1(f3(x))}
  column 2: {C3(x), r0(x,y), ¬C1(y)}, with y
record 4: ObjectIntersectionOf(ObjectSomeValuesFrom(r0 c1) ObjectAllValuesFrom(r0 c1))
  column 0: {C4(x), ¬C2(x)}
  column 1: {C4(x), ¬C3(x)}
  column 2: {¬C4(x), C2(x), C3(x)}
record 5: ObjectUnionOf(ObjectSomeValuesFrom(r0 c1) ObjectSomeValuesFrom(r0 c1))
  column 0: {¬C5(x), C2(x)}
  column 1: {¬C5(x), C2(x)}
  column 2: {C5(x), ¬C2(x), ¬C2(x)}
record 6: ObjectComplementOf(c1)
  column 0: {C6(x), C1(x)}
  column 1: {¬C6(x), ¬C1(x)}
record 7: owl:Thing
  column 0: {¬C7(x)}
record 8: owl:Nothing
  column 0: {C8(x)}
record 9: SubClassOf(c1 ObjectSomeValuesFrom(r0 c1))
  column 0: {C1(x), ¬C2(x)}
record 10: SubClassOf(c1 c1)
  no columns: the statement is off the chain
";
    assert_eq!(report.text, expected);
}

#[test]
fn words_say_what_the_terms_are() {
    let (input, written) = of(V);
    let report = listed(&input, &written, vec![9, 5, 1]);
    let expected = "\
record 9: SubClassOf(c1 ObjectSomeValuesFrom(r0 c1)) (cats own cats)
  column 0: {C1(x), ¬C2(x)}
  C1 = c1 (cat)
  C2 = ObjectSomeValuesFrom(r0 c1) (cat owner)
record 5: ObjectUnionOf(ObjectSomeValuesFrom(r0 c1) ObjectSomeValuesFrom(r0 c1))
  column 0: {¬C5(x), C2(x)}
  column 1: {¬C5(x), C2(x)}
  column 2: {C5(x), ¬C2(x), ¬C2(x)}
  C2 = ObjectSomeValuesFrom(r0 c1) (cat owner)
record 1: c1 (cat)
  no columns: it is a name
";
    assert_eq!(report.text, expected);
}

#[test]
fn programs_get_the_same() {
    let (input, written) = of(V);
    let report = listed(&input, &written, vec![0, 1, 2, 9, 10]);
    let fields: Vec<String> = report
        .json
        .iter()
        .map(|(name, value)| format!("{name} {value}"))
        .collect();
    let expected = [
        r#"{"owner":0,"text":"A within B","words":null,"columns":[{"column":0,"y":false,"literals":["¬CA(a)"]},"#,
        r#"{"column":1,"y":false,"literals":["CB(a)"]}]},"#,
        r#"{"owner":1,"text":"c1","words":"cat","columns":[]},"#,
        r#"{"owner":2,"text":"ObjectSomeValuesFrom(r0 c1)","words":"cat owner","#,
        r#""columns":[{"column":0,"y":false,"literals":["C2(x)","¬r0(x,f2(x))"]},"#,
        r#"{"column":1,"y":false,"literals":["C2(x)","¬C1(f2(x))"]},"#,
        r#"{"column":2,"y":true,"literals":["¬C2(x)","r0(x,y)","C1(y)"]}]},"#,
        r#"{"owner":9,"text":"SubClassOf(c1 ObjectSomeValuesFrom(r0 c1))","words":"cats own cats","chained":true,"#,
        r#""columns":[{"column":0,"y":false,"literals":["C1(x)","¬C2(x)"]}]},"#,
        r#"{"owner":10,"text":"SubClassOf(c1 c1)","words":null,"chained":false,"columns":[]}"#,
    ];
    let owners = format!("owners [{}]", expected.concat());
    assert_eq!(fields, ["file \"v.text\"", "verdict \"listed\"", &owners]);
}

#[test]
fn an_owner_has_to_be_a_record() {
    let (input, written) = of(V);
    assert_eq!(existing(&input, &written, 10).unwrap(), 10);
    for number in [11, 65_536] {
        let failure = existing(&input, &written, number).unwrap_err();
        assert_eq!(failure.status, Status::Refused);
        let message = format!("v.text: there is no record {number}; the vocabulary ends at record 10");
        assert_eq!(failure.message, message);
    }
    let header = Assembled {
        kind: Kind::Vocabulary,
        bytes: vec![16, 1, 0, 0, 0, 0, 0, 0],
        lines: Vec::new(),
        names: Names::default(),
    };
    let written = Written::new(Vocabulary::read(&header.bytes));
    assert_eq!(existing(&given(header), &written, 0).unwrap(), 0);
}
