//! Comparisons that are wrong in one point, so that the table can say how many cases tell each from
//! the right one. "Errors near at hand" of the paper are among them.

use crate::comparison::call::{answer, first_difference, Compared};
use crate::comparison::types::{chained, Restriction, Set, Types, ALL, SOME};

/// A wrong comparison: its name, and what it answers for two terms.
type Error = (&'static str, fn(&Types, u32, u32) -> Compared);

/// The wrong comparisons.
pub const ERRORS: [Error; 14] = [
    ("one witness for all that a role asks", one_witness),
    ("pairs allowed by kind 7 alone", kind_7_alone),
    ("pairs allowed by kind 8 alone", kind_8_alone),
    ("every pair allowed", every_pair),
    ("pairs turned round", turned_pairs),
    ("roles not told apart", one_role),
    ("kind 7 asks for no witness", kind_7_asks_nothing),
    ("kind 8 asks for no witness", kind_8_asks_nothing),
    ("served by removed types", one_round),
    ("removed one by one, rising", removed_rising),
    ("removed one by one, falling", removed_falling),
    ("statements off the chain used", unchained),
    ("last round counted", last_counted),
    ("compared at removed types", compared_at_removed),
];

/// The answer from survivors and rounds.
fn given(types: &Types, (survivors, rounds): (Set, usize), a: u32, b: u32) -> Compared {
    Compared {
        element: first_difference(types, &survivors, a, b),
        survivors,
        rounds,
    }
}

/// The types with which the rounds begin.
fn first_set(types: &Types) -> Set {
    types.first_set(&chained(&types.records))
}

/// What rounds leave of a set, and how many removed something, with another meaning of "served".
fn rounds_from(first: Set, served: impl Fn(&Set, usize) -> bool) -> (Set, usize) {
    let mut set = first;
    let mut rounds = 0;
    loop {
        let left: Set = set.iter().copied().filter(|t| served(&set, *t)).collect();
        if left.len() == set.len() {
            return (set, rounds);
        }
        set = left;
        rounds += 1;
    }
}

/// The answer where some restrictions ask for witnesses, among other pairs.
fn with(
    types: &Types,
    asks: impl Fn(&Restriction) -> bool,
    allowed: impl Fn(u16, usize, usize) -> bool,
) -> (Set, usize) {
    let witness = |r: &Restriction, t, s| types.fills(r, s) && allowed(r.role, t, s);
    rounds_from(first_set(types), |set, t| {
        let all = types.restrictions.iter();
        let mut asking = all.filter(|r| asks(r) && types.asks(r, t));
        asking.all(|r| set.iter().any(|s| witness(r, t, *s)))
    })
}

/// Whether a restriction by itself allows the pair (t, s).
fn allows(types: &Types, r: &Restriction, t: usize, s: usize) -> bool {
    types.asks(r, t) || !types.fills(r, s)
}

/// Whether the restrictions of a kind allow a pair for a role.
fn kind_allows(types: &Types, kind: u8, role: u16, t: usize, s: usize) -> bool {
    let all = types.restrictions.iter();
    let mut of_kind = all.filter(|r| r.kind == kind && r.role == role);
    of_kind.all(|r| allows(types, r, t, s))
}

/// One type has to be the witness of all that a role asks for.
fn one_witness(types: &Types, a: u32, b: u32) -> Compared {
    let served = |set: &Set, t: usize| {
        let asking = || types.restrictions.iter().filter(|r| types.asks(r, t));
        let fits = |role: u16, s: usize| {
            let mut of_role = asking().filter(|r| r.role == role);
            of_role.all(|r| types.fills(r, s)) && types.allowed(role, t, s)
        };
        asking().all(|r| set.iter().any(|s| fits(r.role, *s)))
    };
    given(types, rounds_from(first_set(types), served), a, b)
}

/// Pairs are allowed by the records of kind 7 alone.
fn kind_7_alone(types: &Types, a: u32, b: u32) -> Compared {
    let allowed = |role, t, s| kind_allows(types, SOME, role, t, s);
    given(types, with(types, |_| true, allowed), a, b)
}

/// Pairs are allowed by the records of kind 8 alone.
fn kind_8_alone(types: &Types, a: u32, b: u32) -> Compared {
    let allowed = |role, t, s| kind_allows(types, ALL, role, t, s);
    given(types, with(types, |_| true, allowed), a, b)
}

/// Every pair is allowed.
fn every_pair(types: &Types, a: u32, b: u32) -> Compared {
    given(types, with(types, |_| true, |_, _, _| true), a, b)
}

/// A pair is allowed where the pair turned round is.
fn turned_pairs(types: &Types, a: u32, b: u32) -> Compared {
    let allowed = |role, t, s| types.allowed(role, s, t);
    given(types, with(types, |_| true, allowed), a, b)
}

/// A pair is allowed for a role where the records of all roles allow it.
fn one_role(types: &Types, a: u32, b: u32) -> Compared {
    let allowed = |_, t, s| types.restrictions.iter().all(|r| allows(types, r, t, s));
    given(types, with(types, |_| true, allowed), a, b)
}

/// Records of kind 7 ask for no witness.
fn kind_7_asks_nothing(types: &Types, a: u32, b: u32) -> Compared {
    let allowed = |role, t, s| types.allowed(role, t, s);
    given(types, with(types, |r| r.kind == ALL, allowed), a, b)
}

/// Records of kind 8 ask for no witness.
fn kind_8_asks_nothing(types: &Types, a: u32, b: u32) -> Compared {
    let allowed = |role, t, s| types.allowed(role, t, s);
    given(types, with(types, |r| r.kind == SOME, allowed), a, b)
}

/// There is one round, after which types may be served by removed ones.
fn one_round(types: &Types, a: u32, b: u32) -> Compared {
    let first = first_set(types);
    let left = types.round(&first);
    let rounds = usize::from(left.len() < first.len());
    given(types, (left, rounds), a, b)
}

/// Types are removed one by one, the smallest first.
fn removed_rising(types: &Types, a: u32, b: u32) -> Compared {
    given(types, removed_in_order(types, |set| set), a, b)
}

/// Types are removed one by one, the largest first.
fn removed_falling(types: &Types, a: u32, b: u32) -> Compared {
    let falling = |set: Set| set.into_iter().rev().collect();
    given(types, removed_in_order(types, falling), a, b)
}

/// Rounds in which a type goes as soon as it is found not to be served.
fn removed_in_order(types: &Types, order: impl Fn(Set) -> Set) -> (Set, usize) {
    let mut set = first_set(types);
    let mut rounds = 0;
    loop {
        let before = set.len();
        for t in order(set.clone()) {
            if !types.served(&set, t) {
                set.retain(|s| *s != t);
            }
        }
        if set.len() == before {
            return (set, rounds);
        }
        rounds += 1;
    }
}

/// Statements off the chain are used too.
fn unchained(types: &Types, a: u32, b: u32) -> Compared {
    let all = types.records.iter().filter(|r| r.is_statement());
    let first = types.first_set(&all.copied().collect::<Vec<_>>());
    let served = |set: &Set, t| types.served(set, t);
    given(types, rounds_from(first, served), a, b)
}

/// The last round, which removes nothing, is counted.
fn last_counted(types: &Types, a: u32, b: u32) -> Compared {
    let right = answer(types, a, b);
    Compared {
        rounds: right.rounds + 1,
        ..right
    }
}

/// The terms are compared at removed types too.
fn compared_at_removed(types: &Types, a: u32, b: u32) -> Compared {
    Compared {
        element: first_difference(types, &first_set(types), a, b),
        ..answer(types, a, b)
    }
}
