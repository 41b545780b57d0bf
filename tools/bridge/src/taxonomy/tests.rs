//! Taxonomies of small vocabularies, by the survivors and by what a reasoner wrote.

#![allow(clippy::unwrap_used)]

use super::{names, Taxonomy};
use crate::emit::Language;
use crate::hierarchy::Hierarchy;
use crate::making::Making;
use base::vocabulary::{Saying, Vocabulary};

/// Names 1, 3, 4, 5, 6 and a restriction between, so that a name's place among the atoms is not its place among the
/// names. 6 lies within 1, which equals 5; 1 lies within 3, so 6 does too. 4 stands apart.
fn vocabulary() -> Vocabulary {
    let mut making = Making::new(1);
    making.put(Saying::Name(10));
    making.put(Saying::Some(0, 1));
    for label in 11..15 {
        making.put(Saying::Name(label));
    }
    for (a, b) in [(6, 1), (1, 5), (5, 1), (1, 3)] {
        making.state(a, b);
    }
    making.vocabulary
}

const TEXT: &str = "\
1: equal 5, broader 3
3: equal, broader
4: equal, broader
5: equal 1, broader 3
6: equal, broader 1 5
";

#[test]
fn names_have_their_equals_and_no_name_between_them_and_the_nearest() {
    assert_eq!(names(&vocabulary()), [1, 3, 4, 5, 6]);
    assert_eq!(Taxonomy::settled(&vocabulary()).unwrap().to_string(), TEXT);
}

#[test]
fn with_no_survivor_all_names_are_equal() {
    let mut making = Making::new(0);
    making.put(Saying::Name(10));
    making.put(Saying::Name(11));
    let top = making.put(Saying::Top);
    let bottom = making.put(Saying::Bottom);
    making.state(top, bottom);
    let settled = Taxonomy::settled(&making.vocabulary).unwrap();
    assert_eq!(settled.to_string(), "1: equal 2, broader\n2: equal 1, broader\n");
    assert_eq!(Taxonomy::settled(&Making::new(0).vocabulary).unwrap().to_string(), "");
}

#[test]
fn a_classification_says_the_same_where_it_has_all_names() {
    let text = "(\"T1\"=\"T5\") {1: \"T3\"} {1: \"T6\"}\n\"T3\" {1: \"TOP\"} {1: \"T1\"}\n\
                \"T4\" {1: \"TOP\"} {1: \"BOTTOM\"}\n";
    let classified = |text: &str| Taxonomy::classified(&vocabulary(), &Hierarchy::read(Language::Fact, text));
    assert_eq!(classified(text), None);
    let whole = format!("{text}\"T6\" {{1: \"T1\"}} {{1: \"BOTTOM\"}}\n");
    assert_eq!(classified(&whole), Some(Taxonomy::settled(&vocabulary()).unwrap()));
    let apart = format!("{text}\"T6\" {{1: \"TOP\"}} {{1: \"BOTTOM\"}}\n");
    assert_ne!(classified(&apart), classified(&whole));
}
