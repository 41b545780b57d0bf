//! The search over families of sets that are known, without the library.

#![allow(clippy::unwrap_used, clippy::indexing_slicing, clippy::panic)]

use super::{Others, Search, Set, ASKED};
use std::collections::BTreeSet;

/// Random numbers below a bound.
struct Random(u64);

impl Random {
    fn below(&mut self, bound: u64) -> u64 {
        self.0 = self
            .0
            .wrapping_mul(6_364_136_223_846_793_005)
            .wrapping_add(1_442_695_040_888_963_407);
        (self.0 >> 33) % bound
    }
}

/// The sets of a family of which no other is a part.
fn minimal(family: &BTreeSet<Set>) -> BTreeSet<Set> {
    let has_part = |set: &Set| family.iter().any(|other| other != set && other.is_part_of(*set));
    family.iter().copied().filter(|set| !has_part(set)).collect()
}

/// A search where a set is enough if one of the family is a part of it.
fn search<'a>(statements: Set, family: &'a BTreeSet<Set>) -> Search<impl FnMut(Set) -> Result<bool, String> + use<'a>> {
    Search::new(statements, |set| Ok(family.iter().any(|one| one.is_part_of(set))))
}

#[test]
fn sets_have_the_numbers_that_they_were_made_of() {
    let numbers: Vec<u16> = vec![0, 1, 63, 64, 300, 511];
    let set = Set::of(numbers.iter().rev().copied());
    assert_eq!((set.numbers(), set.count()), (numbers, 6));
    assert_eq!(Set::of([512, u16::MAX]), Set::default());
    let (left, right) = (Set::of([1, 64]), Set::of([64, 500]));
    assert_eq!(left.and(right), Set::of([1, 64, 500]));
    assert_eq!(left.without(right), Set::of([1]));
    assert!(Set::of([64]).is_part_of(left) && !left.is_part_of(right) && Set::default().is_part_of(left));
    assert!(Set::of([1]).is_apart_from(right) && !left.is_apart_from(right));
}

#[test]
fn all_minimal_sets_are_found_and_no_others() {
    let (mut several, mut empty) = (0, 0);
    for seed in 0..3_000 {
        let mut random = Random(seed);
        let count = 1 + random.below(7);
        let statements: Vec<u16> = (0..count as u16).map(|number| 3 + number * 80).collect();
        let mut some = || Set::of(statements.iter().copied().filter(|_| random.below(3) == 0));
        let family: BTreeSet<Set> = (0..1 + seed % 8).map(|_| some()).collect();
        let wanted = minimal(&family);
        let all = Set::of(statements.iter().copied());
        for most in 1..=wanted.len() + 1 {
            let mut search = search(all, &family);
            let others = search.all(most).unwrap();
            let found: BTreeSet<Set> = search.found.iter().copied().collect();
            assert_eq!(found.len(), search.found.len().min(most), "{seed}");
            assert!(found.is_subset(&wanted), "{seed}");
            let is_all = found == wanted;
            assert_eq!(is_all, most >= wanted.len(), "{seed}");
            assert_eq!(others, if is_all { Others::None } else { Others::Some }, "{seed}");
        }
        let mut search = search(all, &family);
        let others = search.first().unwrap();
        assert!(wanted.contains(&search.found[0]) && search.found.len() == 1);
        let is_only = [Set::default(), all].contains(&search.found[0]);
        assert_eq!(others, if is_only { Others::None } else { Others::Unknown });
        assert!(!is_only || wanted.len() == 1);
        several += usize::from(wanted.len() > 2);
        empty += usize::from(wanted.contains(&Set::default()));
    }
    assert!(several > 300 && empty > 100, "{several}, {empty}");
}

#[test]
fn few_questions_find_a_few_of_many() {
    for seed in 0..200 {
        let mut random = Random(seed);
        let needed = Set::of((0..seed % 12).map(|_| 100 + random.below(400) as u16));
        let family = BTreeSet::from([needed]);
        let mut search = search(Set::of(100..500), &family);
        search.first().unwrap();
        assert_eq!(search.found, [needed]);
        // Halved nine times, and at each size the runs with a needed statement and their other halves.
        assert!(search.asked <= 1 + 9 * 2 * needed.count() as u64, "{}", search.asked);
    }
}

#[test]
fn a_search_without_end_is_given_up() {
    // Twelve sets that share nothing: 5 ^ 12 ways to take one statement of each.
    let family: BTreeSet<Set> = (0..12).map(|set| Set::of(5 * set + 1..5 * set + 6)).collect();
    let mut search = search(Set::of(0..100), &family);
    assert_eq!(search.all(64), Ok(Others::Unknown));
    assert_eq!(search.found.iter().copied().collect::<BTreeSet<Set>>(), family);
    assert!(search.asked < ASKED + 100, "{}", search.asked);
}

#[test]
fn what_is_found_stays_where_a_question_has_no_answer() {
    let family: BTreeSet<Set> = (0..4).map(|set| Set::of(5 * set + 1..5 * set + 6)).collect();
    let mut left = 60;
    let mut search = Search::new(Set::of(0..100), |set| {
        left -= 1;
        match left {
            0 => Err("no answer"),
            _ => Ok(family.iter().any(|one| one.is_part_of(set))),
        }
    });
    assert_eq!(search.all(64), Err("no answer"));
    assert!((1..4).contains(&search.found.len()), "{}", search.found.len());
    assert!(search.found.iter().all(|found| family.contains(found)));
    assert_eq!(search.asked, 60);
}
