//! Numbers of survivors that are wrong in one point of the count that is kept running from round to
//! round, so that the table can say how many cases tell each from the right one.

use crate::comparison::types::{chained, Restriction, Set, Types};

/// A wrong count: its name, and what it gives for a vocabulary.
type Count = (&'static str, fn(&Types) -> usize);

/// The wrong counts.
pub const COUNTS: [Count; 6] = [
    ("count begun with all types", from_all_types),
    ("count lowered for each role that fails", each_role),
    ("count not lowered for the last role", last_role_left_out),
    ("count one round behind", one_round_behind),
    ("count lowered in the first round alone", first_round_alone),
    ("count never lowered", never_lowered),
];

/// The sets that the rounds reach, the first one before any round; each round removed something.
fn stages(types: &Types) -> Vec<Set> {
    let mut stages = vec![types.first_set(&chained(&types.records))];
    while let Some(set) = stages.last() {
        let left = types.round(set);
        if left.len() == set.len() {
            break;
        }
        stages.push(left);
    }
    stages
}

/// The roles for which a set does not serve a type, rising.
fn failing_roles(types: &Types, set: &Set, t: usize) -> Vec<u16> {
    let witness = |r: &Restriction, s: usize| types.fills(r, s) && types.allowed(r.role, t, s);
    let fails = |r: &&Restriction| types.asks(r, t) && !set.iter().any(|s| witness(r, *s));
    let mut roles: Vec<u16> = types.restrictions.iter().filter(fails).map(|r| r.role).collect();
    roles.sort_unstable();
    roles.dedup();
    roles
}

/// The number of types with which the rounds begin, less, for each type of each round's set, a number given by
/// the roles for which it fails; never below 0. With 1 where there is such a role it is the right count.
pub fn lowered(types: &Types, by: impl Fn(&[u16]) -> usize) -> usize {
    let stages = stages(types);
    let fall = |set: &Set| set.iter().map(|t| by(&failing_roles(types, set, *t))).sum::<usize>();
    let falls = stages.iter().map(fall).sum();
    stages.first().map_or(0, Vec::len).saturating_sub(falls)
}

/// How many types stage n has; the last stage stands for those after it.
fn members(types: &Types, n: usize) -> usize {
    let stages = stages(types);
    let stage = stages.get(n).or(stages.last());
    stage.map_or(0, Vec::len)
}

/// Types at which a statement does not hold are counted too, and never counted off.
fn from_all_types(types: &Types) -> usize {
    let removed = members(types, 0) - types.survivors().0.len();
    types.count() - removed
}

/// A type that fails for two roles is counted off twice.
fn each_role(types: &Types) -> usize {
    lowered(types, <[u16]>::len)
}

/// A type that fails for the last role alone is removed, and not counted off.
fn last_role_left_out(types: &Types) -> usize {
    let last = types.restrictions.iter().map(|r| r.role).max();
    lowered(types, |roles| {
        usize::from(roles.first().is_some_and(|first| Some(*first) != last))
    })
}

/// The count is the one with which the last round that removed something began.
fn one_round_behind(types: &Types) -> usize {
    members(types, stages(types).len().saturating_sub(2))
}

/// Later rounds remove, and do not count off.
fn first_round_alone(types: &Types) -> usize {
    members(types, 1)
}

/// No round counts off what it removes.
fn never_lowered(types: &Types) -> usize {
    members(types, 0)
}
