//! Tables that are wrong only where there are more than six atoms. Six have 64 types, as many as a word has bits: a
//! program that keeps 64 types in a word finds the truth of the first six atoms within a word, that of the others by
//! which word it is, and may err in the one alone.

use crate::classification::errors::tables::{order_at, WrongTable};
use crate::classification::taxonomy::{names, Order, Table};
use crate::comparison::{atoms, Set, Types};

/// How many atoms there are before the others.
const LOW: usize = 6;
/// How many types these have.
const WORD: usize = 1 << LOW;

/// The wrong tables.
pub const WIDE: [WrongTable; 13] = [
    (
        "names from atom 6 on within nothing but themselves",
        high_within_nothing,
    ),
    (
        "nothing but themselves within names from atom 6 on",
        nothing_within_high,
    ),
    ("names up to atom 5 within none from atom 6 on", low_within_no_high),
    ("names from atom 6 on within none up to atom 5", high_within_no_low),
    ("the low six bits alone tell broader", high_bits_0),
    ("the low six bits alone, the others taken as 1", high_bits_1),
    ("the high six bits alone tell broader", low_bits_0),
    ("atom 6 taken as atom 0, and so on", high_as_low),
    ("the first 64 types alone", first_word_alone),
    ("the first 64 types left out", first_word_left_out),
    ("the last 64 types left out", last_word_left_out),
    ("the first of each 64 types left out", first_bit_left_out),
    ("the last of each 64 types left out", last_bit_left_out),
];

/// The table where a name lies within another one only if this is asked of the two: of each it is known whether its
/// atom is one of the first six.
fn asked(types: &Types, set: &Set, is_asked: fn(bool, bool) -> bool) -> Table {
    let low: Vec<usize> = atoms(&types.records).into_iter().take(LOW).collect();
    let names: Vec<bool> = names(&types.records).iter().map(|name| low.contains(name)).collect();
    let is_low = |i: usize| names.get(i).is_some_and(|low| *low);
    let order = order_at(types, set);
    let within = |i, j| i == j || (is_asked(is_low(i), is_low(j)) && order.within(i, j));
    Order::by(order.count(), within).table()
}

/// A name from atom 6 on lies within no other.
fn high_within_nothing(types: &Types, set: &Set) -> Table {
    asked(types, set, |low, _| low)
}

/// No other name lies within one from atom 6 on.
fn nothing_within_high(types: &Types, set: &Set) -> Table {
    asked(types, set, |_, low| low)
}

/// A name up to atom 5 lies within none from atom 6 on.
fn low_within_no_high(types: &Types, set: &Set) -> Table {
    asked(types, set, |first, second| !first || second)
}

/// A name from atom 6 on lies within none up to atom 5.
fn high_within_no_low(types: &Types, set: &Set) -> Table {
    asked(types, set, |first, second| first || !second)
}

/// The table at other types than the survivors: for each the one that is looked at in its place, if any.
fn looked_at(types: &Types, set: &Set, place: impl Fn(usize) -> Option<usize>) -> Table {
    let mut seen: Set = set.iter().filter_map(|t| place(*t)).collect();
    seen.sort_unstable();
    seen.dedup();
    order_at(types, &seen).table()
}

/// Atoms from 6 on are taken as false at every type.
fn high_bits_0(types: &Types, set: &Set) -> Table {
    looked_at(types, set, |t| Some(t % WORD))
}

/// Atoms from 6 on are taken as true at every type.
fn high_bits_1(types: &Types, set: &Set) -> Table {
    looked_at(types, set, |t| Some(types.count() - WORD + t % WORD))
}

/// Atoms up to 5 are taken as false at every type.
fn low_bits_0(types: &Types, set: &Set) -> Table {
    looked_at(types, set, |t| Some(t / WORD * WORD))
}

/// A name from atom 6 on has the truth of the atom six before it.
fn high_as_low(types: &Types, set: &Set) -> Table {
    let atoms = atoms(&types.records);
    let place = |name: &usize| atoms.iter().position(|atom| atom == name);
    let taken = |name: &usize| place(name).and_then(|place| atoms.get(place % LOW)).copied();
    let names: Vec<usize> = names(&types.records).iter().filter_map(taken).collect();
    Order::at(types, &names, set).table()
}

/// Survivors from type 64 on are not seen.
fn first_word_alone(types: &Types, set: &Set) -> Table {
    looked_at(types, set, |t| Some(t).filter(|t| *t < WORD))
}

/// Survivors before type 64 are not seen.
fn first_word_left_out(types: &Types, set: &Set) -> Table {
    looked_at(types, set, |t| Some(t).filter(|t| *t >= WORD))
}

/// Survivors among the last 64 types are not seen.
fn last_word_left_out(types: &Types, set: &Set) -> Table {
    looked_at(types, set, |t| Some(t).filter(|t| *t < types.count() - WORD))
}

/// Of each 64 types the first is not seen.
fn first_bit_left_out(types: &Types, set: &Set) -> Table {
    looked_at(types, set, |t| Some(t).filter(|t| t % WORD != 0))
}

/// Of each 64 types the last is not seen.
fn last_bit_left_out(types: &Types, set: &Set) -> Table {
    looked_at(types, set, |t| Some(t).filter(|t| t % WORD != WORD - 1))
}
