//! Names that are broader than others, equal to them or empty only because of what restrictions ask for, so that the
//! rounds decide. Tables are written out row by row.

use crate::classification::plan::Plan;
use crate::classification::taxonomy::{Table, TABLE_BYTES};
use crate::comparison::families::{asides, contradictions, counter, ladder, passed_on, ring, witnesses, Ending};
use crate::comparison::Terms;
use crate::vocabulary::records::records;

/// The table whose rows are given in digits.
pub fn rows(text: &str) -> Table {
    let mut table = [0; TABLE_BYTES];
    let digits = text.chars().filter_map(|digit| digit.to_digit(10));
    for (byte, digit) in table.iter_mut().zip(digits) {
        *byte = digit as u8;
    }
    table
}

/// The table of so many names that all are equal, or none of which lies within another.
fn alike(count: usize, equal: bool) -> Table {
    let digit = |i, j| if equal || i == j { '2' } else { '0' };
    let all = (0..count).flat_map(|i| (0..count).map(move |j| digit(i, j)));
    rows(&all.collect::<String>())
}

/// Restrictions of a kind to names each of which lies within the next, and a name equal to each: these lie within each
/// other, too. The names of the restrictions come last, or first, with their order turned round.
fn raised(kind: u8, levels: usize, turned: bool) -> Terms {
    let mut terms = Terms::new(1);
    let mut first = terms.name_list(levels);
    let mut second = terms.name_list(levels);
    if turned {
        std::mem::swap(&mut first, &mut second);
        second.reverse();
    }
    for (lower, upper) in first.iter().zip(first.iter().skip(1)) {
        terms.within(*lower, *upper);
    }
    for (filler, name) in first.iter().zip(&second) {
        let restriction = terms.push(kind, 0, *filler);
        terms.equal(*name, restriction);
    }
    terms
}

/// The table of `raised`: two chains side by side, or the first with its order turned round.
fn raised_table(levels: usize, turned: bool) -> Table {
    let next = |i: usize| if turned && i < levels { i.wrapping_sub(1) } else { i + 1 };
    let digit = |i: usize, j: usize| match j {
        _ if i == j => '2',
        _ if next(i) == j && i / levels == j / levels => '1',
        _ => '0',
    };
    let all = (0..2 * levels).flat_map(|i| (0..2 * levels).map(move |j| digit(i, j)));
    rows(&all.collect::<String>())
}

/// Who has something lies within the first name; each other name has something that is the first name, or the next one.
fn domain(others: usize, role: u16) -> Terms {
    let mut terms = Terms::new(role + 1);
    let top = terms.top();
    let owner = terms.name();
    let some = terms.some(role, top);
    terms.within(some, owner);
    let mut held = owner;
    for _ in 0..others {
        let name = terms.name();
        let holds = terms.some(role, held);
        terms.within(name, holds);
        held = name;
    }
    terms
}

/// The table of `domain`: the first name is the nearest of each other.
fn domain_table(others: usize) -> Table {
    let digit = |i, j| match (i, j) {
        _ if i == j => '2',
        (_, 0) => '1',
        _ => '0',
    };
    let all = (0..=others).flat_map(|i| (0..=others).map(move |j| digit(i, j)));
    rows(&all.collect::<String>())
}

/// Names 1, 2; 3 equals some role to both, 4 some role to 1, 5 some role to 2, 6 equals 4 and 5: so 3 lies within 6.
fn fillers() -> Terms {
    let mut terms = Terms::new(1);
    let [first, second, third, fourth, fifth, sixth] = terms.names();
    let both = terms.and(first, second);
    for (name, filler) in [(third, both), (fourth, first), (fifth, second)] {
        let some = terms.some(0, filler);
        terms.equal(name, some);
    }
    let each = terms.and(fourth, fifth);
    terms.equal(sixth, each);
    terms
}

/// Names 1 to 3: 2 equals some role to 1, 3 equals not all role to not 1. The restrictions come before the last names.
fn duals() -> Terms {
    let mut terms = Terms::new(2);
    let first = terms.name();
    let some = terms.some(1, first);
    let other = terms.not(first);
    let all = terms.all(1, other);
    let [second, third] = terms.names();
    let not_all = terms.not(all);
    terms.equal(second, some);
    terms.equal(third, not_all);
    terms
}

/// Names 1 to 5: 1 is within bottom; 2 has some 1, so that it is empty, too; 3 equals all role to 1, and 4 all role to
/// 2, which is the same; 5 equals all role to top, which is everything.
fn empties() -> Terms {
    let mut terms = Terms::new(1);
    let [first, second, third, fourth, fifth] = terms.names();
    let (top, bottom) = (terms.top(), terms.bottom());
    terms.within(first, bottom);
    let some = terms.some(0, first);
    terms.within(second, some);
    for (name, filler) in [(third, first), (fourth, second), (fifth, top)] {
        let all = terms.all(0, filler);
        terms.equal(name, all);
    }
    terms
}

/// Names 1 to 4, of which 1 has only 3, and 2 some 3; both are within 4. The last two restrictions are stated of 4 off
/// the chain alone.
fn aside() -> Terms {
    let mut terms = Terms::new(1);
    let [first, second, third, fourth] = terms.names();
    let (only, some) = (terms.all(0, third), terms.some(0, third));
    terms.within(first, only);
    terms.within(second, some);
    terms.within(first, fourth);
    terms.within(second, fourth);
    terms.aside(fourth, some);
    terms.aside(fourth, only);
    terms.aside(first, second);
    terms
}

impl Plan {
    /// All of these.
    pub fn by_elimination(&mut self) {
        for levels in 1..=4 {
            for kind in [7, 8] {
                for turned in [false, true] {
                    let vocabulary = raised(kind, levels, turned).bytes();
                    self.add_table(&vocabulary, raised_table(levels, turned));
                }
            }
        }
        for others in 0..=4 {
            for role in [0, 2, 63] {
                self.add_table(&domain(others, role).bytes(), domain_table(others));
            }
        }
        self.add_table(&duals().bytes(), rows("200 022 022"));
        self.add_table(&fillers().bytes(), rows("200000 020000 002001 000200 000020 000112"));
        self.add_table(&empties().bytes(), rows("22110 22110 00221 00221 00002"));
        self.add_table(&aside().bytes(), rows("2001 0201 0020 0002"));
        self.of_the_comparison();
    }

    /// The comparison's families of which the order of names is known: none lies within another, or all are empty, or
    /// there is no survivor.
    fn of_the_comparison(&mut self) {
        for count in 1..=6 {
            for rising in [false, true] {
                for (ending, empty) in [
                    (Ending::Stated, true),
                    (Ending::SomeBottom, true),
                    (Ending::Open, false),
                ] {
                    self.add_alike(ladder(count, ending, rising), empty);
                }
            }
        }
        for count in 1..=5 {
            self.add_alike(ring(count, false), false);
            self.add_alike(ring(count, true), true);
            self.add_alike(counter(count), true);
            self.add_alike(witnesses(count, 2), false);
        }
        for terms in contradictions() {
            self.add_alike(terms, true);
        }
        for depth in 2..=4 {
            self.add_alike(passed_on(depth, 1), false);
        }
        self.add_alike(asides(), false);
    }

    /// Adds a vocabulary whose names all are equal, or none of which lies within another.
    fn add_alike(&mut self, terms: Terms, equal: bool) {
        let vocabulary = terms.bytes();
        let names = records(&vocabulary).iter().filter(|record| record.is_name()).count();
        self.add_table(&vocabulary, alike(names, equal));
    }
}
