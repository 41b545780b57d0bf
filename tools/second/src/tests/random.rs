//! The source of random choices, and the cases that hang on it.

use crate::random::Random;
use crate::vocabulary::{all, Case};

/// The first numbers below 2^32 of a seed.
fn numbers(seed: u64) -> Vec<usize> {
    let mut random = Random::new(seed);
    (0..100).map(|_| random.below(1 << 32)).collect()
}

/// The cases of a seed.
fn cases(seed: Option<u64>) -> Vec<Case> {
    all(seed).into_iter().map(|planned| planned.case).collect()
}

/// A seed gives the same numbers in every run, and another seed others.
#[test]
fn numbers_by_seed() {
    assert_eq!(numbers(7), numbers(7));
    assert_ne!(numbers(7), numbers(8));
    assert_ne!(numbers(7), numbers(7 << 32));
}

/// The numbers are those of splitmix64, whose first for seed 0 is 0xE220A8397B1DCDAF.
#[test]
fn splitmix64() {
    let mut random = Random::new(0);
    let first: [usize; 3] = [0; 3].map(|_| random.below(1 << 32));
    assert_eq!(first, [0x7B1D_CDAF, 0xA1B9_65F4, 0x8009_454F]);
}

/// Numbers are below the end, and each of them comes up; below 0 there is 0.
#[test]
fn below() {
    let mut random = Random::new(1);
    let mut met = [false; 5];
    for _ in 0..1000 {
        met[random.below(5)] = true;
    }
    assert_eq!(met, [true; 5]);
    assert_eq!(random.below(0), 0);
}

/// A shuffle keeps the items and changes their order; nothing is picked where there is nothing.
#[test]
fn shuffle_and_pick() {
    let mut random = Random::new(1);
    let sorted: Vec<u8> = (0..50).collect();
    let mut items = sorted.clone();
    random.shuffle(&mut items);
    assert_ne!(items, sorted);
    assert!(random.pick(&items).is_some_and(|item| items.contains(&item)));
    items.sort_unstable();
    assert_eq!(items, sorted);
    assert_eq!(random.pick::<u8>(&[]), None);
}

/// The cases are the same for the same seed, and others for another and for none.
#[test]
fn cases_by_seed() {
    let seventh = cases(Some(7));
    assert_eq!(cases(Some(7)), seventh);
    assert_ne!(cases(Some(8)), seventh);
    assert_ne!(cases(None), seventh);
}
