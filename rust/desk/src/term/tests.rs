//! Terms by their texts: the answer is that of the vocabulary with their records.

#![allow(clippy::unwrap_used, clippy::indexing_slicing, clippy::panic)]

use super::{ask, extend, Unasked};
use crate::files::Name;
use crate::input::Input;
use crate::stored::compared;
use crate::text::vocabulary::Written;
use crate::text::{Assembled, Kind, Line};
use base::vocabulary::Vocabulary;
use judge::{Builder, Comparison};

fn input(bytes: &[u8]) -> Input {
    let assembled = Assembled {
        kind: Kind::Vocabulary,
        bytes: bytes.to_vec(),
        lines: Vec::<Line>::new(),
        names: Default::default(),
    };
    Input::assembled(&Name::new("v".as_ref()), None, assembled)
}

/// The comparison, with the survivors.
fn compare(bytes: &[u8], a: u32, b: u32) -> (Comparison, Vec<u8>) {
    let mut survivors = [0; judge::SURVIVOR_BYTES];
    let answer = judge::compare(bytes, a, b, &mut survivors).unwrap();
    (answer, survivors.to_vec())
}

/// Each term of the stored vocabularies is found by its text, and the complement of one, and its union with the next, give
/// the same answer and survivors as records of the vocabulary.
#[test]
fn a_term_that_is_added_is_answered_as_a_record() {
    let (mut found, mut added) = (0, 0);
    for bytes in compared().into_iter().step_by(7) {
        if judge::atoms(&bytes).map_or(true, |atoms| usize::from(atoms) > judge::ATOMS) || bytes.len() > 8 * 60 {
            continue;
        }
        let written = Written::new(Vocabulary::read(&bytes));
        let terms = written.vocabulary().terms();
        for pair in terms.windows(2) {
            let [a, b] = [pair[0], pair[1]];
            let [a_text, b_text] = [a, b].map(|term| written.expression(term.into()).unwrap());
            let asked = ask(&input(&bytes), [&a_text, &b_text]).unwrap_or_else(|_| panic!("{a_text} {b_text}"));
            assert!(asked.added.is_empty());
            for (number, term) in asked.pair.into_iter().zip([a, b]) {
                let [first, term] = [number as usize, term.into()].map(|term| written.vocabulary().get(term));
                assert_eq!(first, term);
            }
            found += 1;
            // As the last records of the vocabulary.
            let texts = [format!("ObjectUnionOf(#{a} #{b})"), format!("ObjectComplementOf(#{a})")];
            let mut copy = input(&bytes);
            let asked = ask(&copy, [&texts[0], &texts[1]]).unwrap_or_else(|_| panic!("{texts:?}"));
            extend(&mut copy, &asked).unwrap_or_else(|_| panic!("{texts:?}"));
            let mut buffer = bytes.clone();
            buffer.resize(judge::VOCABULARY_BYTES, 0);
            let mut builder = Builder::resume(buffer, bytes.len()).unwrap();
            let [x, y] = [builder.or(a, b).unwrap(), builder.not(a).unwrap()];
            let wanted = compare(builder.as_bytes(), x.into(), y.into());
            assert_eq!(compare(&copy.bytes, asked.pair[0], asked.pair[1]), wanted);
            assert_eq!(copy.given(), bytes);
            added += usize::from(asked.added.len() == 2);
        }
    }
    assert!(found > 1_000 && added > 500, "{found} {added}");
}

/// A header, two names and a role.
const SMALL: &str = "vocabulary roles 1\nc1\nc2\n";

#[test]
fn a_name_that_is_not_there_is_never_added() {
    let bytes = crate::text::assemble(SMALL).unwrap().bytes;
    for word in [
        "c3",
        "ObjectUnionOf(c1 c3)",
        "ObjectAllValuesFrom(r0 ObjectComplementOf(c01))",
    ] {
        for words in [[word, "c1"], ["c1", word]] {
            assert!(
                matches!(ask(&input(&bytes), words), Err(Unasked::Words(_))),
                "{words:?}"
            );
        }
    }
    let asked = ask(
        &input(&bytes),
        ["ObjectUnionOf(c2 c1)", "ObjectComplementOf(ObjectUnionOf(c2 c1))"],
    );
    let asked = asked.unwrap_or_else(|_| panic!());
    assert_eq!((asked.pair, asked.added.len()), ([3, 4], 2));
}
