//! The meaning over the stored comparisons, and of small interpretations by hand.

#![allow(clippy::unwrap_used, clippy::indexing_slicing)]

use super::{elements, tells_apart};
use crate::making::Making;
use base::vocabulary::{Record, Saying, Vocabulary};
use judge::{Verdict, SURVIVOR_BYTES};

/// The most atoms of the comparisons looked at.
const MOST_ATOMS: usize = 6;

/// A stored comparison that the library answers.
struct Case {
    vocabulary: Vocabulary,
    a: u16,
    b: u16,
    verdict: Verdict,
    survivors: [u8; SURVIVOR_BYTES],
}

impl Case {
    fn of(bytes: &[u8], a: u32, b: u32) -> Option<Case> {
        let mut survivors = [0; SURVIVOR_BYTES];
        let verdict = judge::compare(bytes, a, b, &mut survivors).ok()?.verdict;
        let vocabulary = Vocabulary::read(bytes);
        (vocabulary.atoms().len() <= MOST_ATOMS).then_some(Case {
            vocabulary,
            a: a as u16,
            b: b as u16,
            verdict,
            survivors,
        })
    }

    fn tells_apart(&self, survivors: &[u8], element: u16) -> bool {
        tells_apart(&self.vocabulary, survivors, self.a, self.b, element)
    }

    /// Whether the two terms have different truths at a type.
    fn differ(&self, element: u16) -> bool {
        let truths = self.vocabulary.truths(element);
        truths[usize::from(self.a)] != truths[usize::from(self.b)]
    }

    /// The first type that is no survivor.
    fn removed(&self) -> Option<u16> {
        let survivors = elements(&self.survivors);
        (0..1 << self.vocabulary.atoms().len()).find(|element| !survivors.contains(element))
    }
}

/// The cases of crates/comparison_cases with few atoms.
fn cases() -> Vec<Case> {
    let mut rest: &[u8] = include_bytes!("../../../../crates/comparison_cases/stdin");
    let mut cases = Vec::new();
    while let [l0, l1, a0, a1, a2, a3, b0, b1, b2, b3, _, _, _, after @ ..] = rest {
        let (bytes, after) = after.split_at(u16::from_le_bytes([*l0, *l1]).into());
        let a = u32::from_le_bytes([*a0, *a1, *a2, *a3]);
        let b = u32::from_le_bytes([*b0, *b1, *b2, *b3]);
        cases.extend(Case::of(bytes, a, b));
        rest = after;
    }
    cases
}

#[test]
fn the_survivors_tell_different_terms_apart_at_the_element_and_not_at_a_wrong_one() {
    let (mut different, mut wrong) = (0, 0);
    for case in cases() {
        let Verdict::Different { element } = case.verdict else {
            continue;
        };
        different += 1;
        assert!(case.tells_apart(&case.survivors, element));
        let survivors = elements(&case.survivors);
        let agreeing = survivors.into_iter().find(|other| !case.differ(*other));
        for other in agreeing.into_iter().chain(case.removed()) {
            wrong += 1;
            assert!(!case.tells_apart(&case.survivors, other), "{other}");
        }
    }
    assert_eq!((different, wrong), (1_525, 2_256));
}

#[test]
fn nothing_tells_equal_terms_apart() {
    let mut elements_seen = 0;
    for case in cases().iter().filter(|case| case.verdict == Verdict::Equal) {
        for element in elements(&case.survivors) {
            elements_seen += 1;
            assert!(!case.tells_apart(&case.survivors, element), "{element}");
        }
    }
    assert_eq!(elements_seen, 7_332);
}

/// Without restrictions only the statements remove types, so one that is put back breaks some statement.
#[test]
fn survivors_that_break_a_statement_tell_nothing_apart() {
    let mut broken = 0;
    for case in cases() {
        let is_restriction = |record: Record| matches!(record.kind, 7 | 8);
        let restricted = case.vocabulary.numbered().any(|(_, record)| is_restriction(record));
        let (Verdict::Different { element }, Some(removed), false) = (case.verdict, case.removed(), restricted) else {
            continue;
        };
        let mut survivors = case.survivors;
        survivors[usize::from(removed / 8)] |= 1 << (removed % 8);
        broken += 1;
        assert!(!case.tells_apart(&survivors, element));
    }
    assert_eq!(broken, 39);
}

/// A name, "some of it", "all of it", and bottom: the bits of a type are in this order.
fn restrictions() -> Vocabulary {
    let mut making = Making::new(1);
    let name = making.put(Saying::Name(0));
    making.put(Saying::Some(0, name));
    making.put(Saying::All(0, name));
    making.put(Saying::Bottom);
    making.vocabulary
}

fn set(types: &[u16]) -> [u8; SURVIVOR_BYTES] {
    let mut survivors = [0; SURVIVOR_BYTES];
    for element in types {
        survivors[usize::from(element / 8)] |= 1 << (element % 8);
    }
    survivors
}

#[test]
fn some_needs_an_element_that_its_role_leads_to() {
    let (vocabulary, some, bottom) = (restrictions(), 2, 4);
    // Type 2 is in "some" alone and type 1 in the name alone, to which the role leads.
    assert!(tells_apart(&vocabulary, &set(&[1, 2]), some, bottom, 2));
    assert!(!tells_apart(&vocabulary, &set(&[2]), some, bottom, 2));
    assert!(!tells_apart(&vocabulary, &set(&[1, 2]), some, bottom, 1));
}

#[test]
fn all_holds_where_the_role_leads_to_nothing_else() {
    let (vocabulary, all, bottom) = (restrictions(), 3, 4);
    // Type 4 is in "all" alone and in no "some", so that its role leads nowhere; from type 0 it leads to type 0.
    assert!(tells_apart(&vocabulary, &set(&[0, 4]), all, bottom, 4));
    assert!(!tells_apart(&vocabulary, &set(&[0, 4]), all, bottom, 0));
    assert!(tells_apart(&vocabulary, &set(&[1]), all, bottom, 1));
}

#[test]
fn elements_are_the_bits_of_all_bytes() {
    assert_eq!(elements(&set(&[0, 9, 4095])), [0, 9, 4095]);
    assert_eq!(elements(&[]), []);
}
