//! Stored vocabularies, compared with themselves and with copies whose records have other numbers.

#![allow(clippy::unwrap_used)]

use super::changes::Changes;
use super::records::{matched, Shapes};
use crate::files::Name;
use crate::report::Style;
use crate::stored;
use crate::text::vocabulary::Written;
use base::vocabulary::{Record, Saying, Vocabulary};
use base::Status;
use judge::Edition;

/// A label that no stored vocabulary has.
const LABEL: u16 = 65_000;

/// The same with a name before all records, so that each has another number.
fn shifted(vocabulary: &Vocabulary) -> Vocabulary {
    let link = |number: u16| if number == 0 { 0 } else { number + 1 };
    let header = vocabulary.get(0);
    let atoms = u16::from(header.second == Edition::Two.number());
    let header = Record {
        a: link(header.a),
        next: header.next + atoms,
        ..header
    };
    let mut records = vec![header, Saying::Name(LABEL).record(0)];
    for (_, record) in vocabulary.numbered() {
        let saying = match record.saying().unwrap() {
            Saying::Not(a) => Saying::Not(a + 1),
            Saying::And(a, b) => Saying::And(a + 1, b + 1),
            Saying::Or(a, b) => Saying::Or(a + 1, b + 1),
            Saying::Some(role, b) => Saying::Some(role, b + 1),
            Saying::All(role, b) => Saying::All(role, b + 1),
            Saying::Within(a, b) => Saying::Within(a + 1, b + 1),
            same => same,
        };
        records.push(saying.record(link(record.next)));
    }
    Vocabulary { records }
}

/// The accepted vocabularies with room for one record more.
fn accepted() -> impl Iterator<Item = Vocabulary> {
    let all = stored::vocabularies().into_iter().chain(stored::compared());
    let fit = all.filter(|bytes| judge::check_vocabulary(bytes).is_ok() && bytes.len() < judge::VOCABULARY_BYTES);
    fit.map(|bytes| Vocabulary::read(&bytes))
}

#[test]
fn a_vocabulary_is_the_same_as_itself() {
    let mut count = 0;
    for vocabulary in accepted() {
        let mut shapes = Shapes::default();
        let [old, new] = [vocabulary.clone(), vocabulary].map(|side| shapes.side(Written::new(side)));
        let name = Name::new("v".as_ref());
        let report = Changes::find(&old, &new, Vec::new()).report(Style { colour: false }, [&name, &name]);
        assert_eq!(
            (report.status, report.text.as_str()),
            (Status::Holds, "v and v: no change\n")
        );
        count += 1;
    }
    assert!(count > 1000, "{count}");
}

#[test]
fn records_that_only_moved_are_the_same() {
    let mut count = 0;
    for vocabulary in accepted() {
        let shifted = shifted(&vocabulary);
        assert_eq!(judge::check_vocabulary(&shifted.bytes()).err(), None);
        let records = vocabulary.records.len() as u16;
        let mut shapes = Shapes::default();
        let [old, new] = [vocabulary, shifted].map(|side| shapes.side(Written::new(side)));
        let matched = matched(&old, &new);
        let all: Vec<u16> = matched.pairs.iter().map(|(old, _)| *old).collect();
        assert_eq!(all, (1..records).collect::<Vec<u16>>());
        for (a, b) in &matched.pairs {
            assert_eq!(old.is_chained(*a), new.is_chained(*b));
            assert_eq!(old.shape(*a), new.shape(*b));
        }
        assert_eq!((matched.removed, matched.added), (vec![], vec![1]));
        count += 1;
    }
    assert!(count > 1000, "{count}");
}
