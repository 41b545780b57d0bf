//! Tables that are wrong in one point.

use crate::classification::taxonomy::{names, table, Order, Table, EQUAL, NEAREST, TABLE_BYTES};
use crate::comparison::{atoms, chained, Set, Types, MOST_ATOMS};
use crate::vocabulary::records::{at, terms, Record, A};

/// A wrong table: its name, and the table that is written, by the types and the survivors.
pub type WrongTable = (&'static str, fn(&Types, &Set) -> Table);

/// The wrong tables.
pub const TABLES: [WrongTable; 20] = [
    ("rows of twelve", rows_of_twelve),
    ("columns first", columns_first),
    ("rows as long as the atoms", rows_of_atoms),
    ("names by their labels", by_label),
    ("name i taken as atom i", as_atoms),
    ("all broader names", all_broader),
    ("the diagonal 0", diagonal_0),
    ("equal only to itself", equal_to_itself),
    ("a name equal to an end taken as between", equal_between),
    ("of equal nearest names the first", first_of_equal),
    ("between over all terms", between_terms),
    ("between over all atoms", between_atoms),
    ("strictly broader in each interpretation", strict_in_each),
    ("0 with no survivor", zero_without_survivor),
    ("1 and 0 with no survivor", diagonal_without_survivor),
    ("empty names within nothing", empty_within_nothing),
    ("truth over all types", over_all_types),
    ("truth before the rounds", before_rounds),
    ("statements off the chain used", unchained),
    ("what is stated of names alone", stated_alone),
];

/// The order of the names at a set.
pub fn order_at(types: &Types, set: &Set) -> Order {
    Order::at(types, &names(&types.records), set)
}

/// The table in rows as long as there are names.
fn in_rows(order: &Order, entry: impl Fn(usize, usize) -> u8) -> Table {
    table(order.count(), order.count(), entry)
}

/// The byte of two names, where it is not asked which of the broader ones is the nearest in the usual way.
fn byte(order: &Order, i: usize, j: usize, nearest: bool) -> u8 {
    match order.equal(i, j) {
        true => EQUAL,
        false if order.broader(i, j) && nearest => NEAREST,
        false => 0,
    }
}

/// Rows have twelve bytes, however many names there are.
fn rows_of_twelve(types: &Types, set: &Set) -> Table {
    let order = order_at(types, set);
    table(order.count(), MOST_ATOMS, |i, j| order.entry(i, j))
}

/// Rows go by the second name.
fn columns_first(types: &Types, set: &Set) -> Table {
    let order = order_at(types, set);
    in_rows(&order, |i, j| order.entry(j, i))
}

/// Rows have a byte for each atom.
fn rows_of_atoms(types: &Types, set: &Set) -> Table {
    let order = order_at(types, set);
    table(order.count(), atoms(&types.records).len(), |i, j| order.entry(i, j))
}

/// Names stand in the order of their labels.
fn by_label(types: &Types, set: &Set) -> Table {
    let mut names = names(&types.records);
    names.sort_by_key(|name| at(&types.records, *name).fields[A]);
    Order::at(types, &names, set).table()
}

/// A name has the truth of the atom at its place among the names.
fn as_atoms(types: &Types, set: &Set) -> Table {
    let count = names(&types.records).len();
    let taken: Vec<usize> = atoms(&types.records).into_iter().take(count).collect();
    Order::at(types, &taken, set).table()
}

/// Every broader name gets 1.
fn all_broader(types: &Types, set: &Set) -> Table {
    let order = order_at(types, set);
    in_rows(&order, |i, j| byte(&order, i, j, true))
}

/// A name and itself get 0.
fn diagonal_0(types: &Types, set: &Set) -> Table {
    let order = order_at(types, set);
    in_rows(&order, |i, j| if i == j { 0 } else { order.entry(i, j) })
}

/// Equal names get 0, but for a name and itself.
fn equal_to_itself(types: &Types, set: &Set) -> Table {
    let order = order_at(types, set);
    in_rows(&order, |i, j| match order.entry(i, j) {
        EQUAL if i != j => 0,
        right => right,
    })
}

/// A name equal to one of the two stands between them, too.
fn equal_between(types: &Types, set: &Set) -> Table {
    let order = order_at(types, set);
    let others = |i, j| (0..order.count()).filter(move |m| *m != i && *m != j);
    let between = |i, j| others(i, j).any(|m| order.within(i, m) && order.within(m, j));
    in_rows(&order, |i, j| byte(&order, i, j, !between(i, j)))
}

/// Of equal nearest names only the first gets 1.
fn first_of_equal(types: &Types, set: &Set) -> Table {
    let order = order_at(types, set);
    in_rows(&order, |i, j| match order.entry(i, j) {
        NEAREST if (0..j).any(|before| order.equal(before, j)) => 0,
        right => right,
    })
}

/// The table where one of some terms between two names is enough.
fn between_some(types: &Types, set: &Set, terms: &[usize]) -> Table {
    let names = names(&types.records);
    let both: Vec<usize> = names.iter().chain(terms).copied().collect();
    let order = Order::at(types, &both, set);
    table(names.len(), names.len(), |i, j| order.entry(i, j))
}

/// Any term may stand between.
fn between_terms(types: &Types, set: &Set) -> Table {
    between_some(types, set, &terms(&types.records))
}

/// Any atom may stand between.
fn between_atoms(types: &Types, set: &Set) -> Table {
    between_some(types, set, &atoms(&types.records))
}

/// Strictly broader is what has more elements in each single interpretation: to state that it has not leaves none.
fn strict_in_each(types: &Types, set: &Set) -> Table {
    let names = names(&types.records);
    let order = Order::at(types, &names, set);
    let number = |i: usize| names.get(i).map_or(0, |name| *name as u16);
    let never_back = |i, j| {
        let mut statements = chained(&types.records);
        statements.push(Record::new(9, number(j), number(i), 0));
        types.settle(types.first_set(&statements)).0.is_empty()
    };
    let strict = Order::by(names.len(), |i, j| order.broader(i, j) && never_back(i, j));
    let between = |i, j| (0..names.len()).any(|m| strict.within(i, m) && strict.within(m, j));
    in_rows(&order, |i, j| byte(&order, i, j, strict.within(i, j) && !between(i, j)))
}

/// With no survivor every entry is 0.
fn zero_without_survivor(types: &Types, set: &Set) -> Table {
    if set.is_empty() {
        [0; TABLE_BYTES]
    } else {
        order_at(types, set).table()
    }
}

/// With no survivor a name is equal to itself alone.
fn diagonal_without_survivor(types: &Types, set: &Set) -> Table {
    if set.is_empty() {
        equal_to_itself(types, set)
    } else {
        order_at(types, set).table()
    }
}

/// A name that is true at no survivor lies within none but itself.
fn empty_within_nothing(types: &Types, set: &Set) -> Table {
    let names = names(&types.records);
    let empty: Vec<bool> = names
        .iter()
        .map(|n| !set.iter().any(|t| types.is_true(*n, *t)))
        .collect();
    let is_empty = |i: usize| empty.get(i).is_some_and(|empty| *empty);
    let order = Order::at(types, &names, set);
    Order::by(names.len(), |i, j| i == j || (!is_empty(i) && order.within(i, j))).table()
}

/// Every type counts, whether it survives or not.
fn over_all_types(types: &Types, _: &Set) -> Table {
    order_at(types, &(0..types.count()).collect()).table()
}

/// Every type at which the statements hold counts.
fn before_rounds(types: &Types, _: &Set) -> Table {
    order_at(types, &types.first_set(&chained(&types.records))).table()
}

/// Statements off the chain are used, too.
fn unchained(types: &Types, _: &Set) -> Table {
    let all = types.records.iter().filter(|record| record.is_statement());
    let (set, _) = types.settle(types.first_set(&all.copied().collect::<Vec<_>>()));
    order_at(types, &set).table()
}

/// A name lies within another where statements of names alone lead from it there.
fn stated_alone(types: &Types, _: &Set) -> Table {
    let names = names(&types.records);
    let statements: Vec<[usize; 2]> = chained(&types.records).iter().map(Record::operands).collect();
    let mut order = Order::by(names.len(), |i, j| {
        let stated = [names.get(i), names.get(j)].map(|name| name.copied().unwrap_or(0));
        i == j || statements.contains(&stated)
    });
    for _ in 0..names.len() {
        order = Order::by(names.len(), |i, j| {
            (0..names.len()).any(|m| order.within(i, m) && order.within(m, j))
        });
    }
    order.table()
}
