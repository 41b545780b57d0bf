//! Cases in the making, each with what it is made for.

use crate::random::Random;
use std::collections::BTreeMap;

/// A case, and what it is made for.
pub struct Planned<Case, Meant> {
    /// The case.
    pub case: Case,
    /// What it is made for.
    pub meant: Meant,
}

/// The cases so far, and the source of random choices.
pub struct Plan<Case, Meant> {
    /// The cases.
    pub cases: Vec<Planned<Case, Meant>>,
    /// The source.
    pub random: Random,
}

impl<Case, Meant> Plan<Case, Meant> {
    /// The cases of some groups, by a seed.
    pub fn made(seed: u64, groups: impl Fn(&mut Self)) -> Vec<Planned<Case, Meant>> {
        let mut plan = Plan {
            cases: Vec::new(),
            random: Random::new(seed),
        };
        groups(&mut plan);
        plan.cases
    }
}

/// Up to so many items of each sort, chosen at random.
pub fn some_of_each<T>(items: impl Iterator<Item = (String, T)>, most: usize, random: &mut Random) -> Vec<T> {
    let mut sorts: BTreeMap<String, Vec<T>> = BTreeMap::new();
    for (sort, item) in items {
        sorts.entry(sort).or_default().push(item);
    }
    let mut chosen = Vec::new();
    for mut items in sorts.into_values() {
        random.shuffle(&mut items);
        items.truncate(most);
        chosen.extend(items);
    }
    chosen
}

/// The sort of a line: its first word, and which refusal it says.
pub fn sort_of(line: &str) -> String {
    let words = if line.starts_with("refused") { 2 } else { 1 };
    line.split_whitespace().take(words).collect::<Vec<_>>().join(" ")
}
