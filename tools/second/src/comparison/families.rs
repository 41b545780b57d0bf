//! Vocabularies that wrong comparisons get wrong, in families of several sizes.

use crate::comparison::plan::Plan;
use crate::comparison::terms::Terms;

/// How a ladder's last name is ruled out.
#[derive(Clone, Copy)]
pub enum Ending {
    /// By a statement, before the first round.
    Stated,
    /// By a some-record to bottom, in the first round.
    SomeBottom,
    /// Not at all: by an all-record to bottom it only needs no witness.
    Open,
}

/// The first and the last of some names; where there are none, 0, which is no term.
fn ends(names: &[u16]) -> [u16; 2] {
    [names.first(), names.last()].map(|name| name.copied().unwrap_or(0))
}

/// Each of some names but the last, with the next.
fn steps(names: &[u16]) -> impl Iterator<Item = (u16, u16)> + '_ {
    names.iter().copied().zip(names.iter().copied().skip(1))
}

/// Names that exclude each other, each of which every element needs as a witness.
pub fn witnesses(count: usize, roles: u16) -> Terms {
    let mut terms = Terms::new(roles);
    let names = terms.name_list(count);
    let (top, bottom) = (terms.top(), terms.bottom());
    for (i, name) in names.iter().enumerate() {
        for other in names.iter().take(i) {
            let both = terms.and(*name, *other);
            terms.within(both, bottom);
        }
    }
    for (i, name) in names.iter().enumerate() {
        let some = terms.some(i as u16 % roles, *name);
        terms.within(top, some);
    }
    terms
}

/// Some-records and the all-records to the complement: a type where both or neither are true is not
/// served. Each all-record's complement, the third record after the some-record, equals it.
fn duals(count: usize, roles: u16) -> Terms {
    let mut terms = Terms::new(roles);
    let names = terms.name_list(count);
    for (i, name) in names.iter().enumerate() {
        let role = i as u16 % roles;
        terms.some(role, *name);
        let other = terms.not(*name);
        let all = terms.all(role, other);
        terms.not(all);
    }
    terms
}

/// Names of which each needs the next as a witness: the next by number, or the one before.
pub fn ladder(count: usize, ending: Ending, rising: bool) -> Terms {
    let mut terms = Terms::new(1);
    let mut names = terms.name_list(count);
    if !rising {
        names.reverse();
    }
    let bottom = terms.bottom();
    for (name, next) in steps(&names) {
        let some = terms.some(0, next);
        terms.within(name, some);
    }
    let [_, last] = ends(&names);
    match ending {
        Ending::Stated => terms.within(last, bottom),
        Ending::SomeBottom => {
            let never = terms.some(0, bottom);
            terms.within(last, never)
        }
        Ending::Open => {
            let end = terms.all(0, bottom);
            terms.within(last, end)
        }
    };
    terms
}

/// Names in a ring, each of which needs the next; a broken ring's last name forbids what it needs,
/// so that the others serve each other only through a type that goes.
pub fn ring(count: usize, broken: bool) -> Terms {
    let mut terms = Terms::new(1);
    let names = terms.name_list(count);
    terms.bottom();
    let [first, last] = ends(&names);
    for (name, next) in steps(&names).chain([(last, first)]) {
        let some = terms.some(0, next);
        terms.within(name, some);
    }
    if broken {
        let not = terms.not(first);
        let all = terms.all(0, not);
        terms.within(last, all);
    }
    terms
}

/// A number of `bits` bits, one more than what the some-records say of the witnesses, with at least
/// one of them true: counts down to nothing, one type a round.
pub fn counter(bits: usize) -> Terms {
    let mut terms = Terms::new(1);
    let names = terms.name_list(bits);
    let bottom = terms.bottom();
    let seen: Vec<u16> = names.iter().map(|name| terms.some(0, *name)).collect();
    let mut carry = terms.top();
    let mut none = carry;
    for (name, bit) in names.iter().zip(&seen) {
        let either = terms.or(*bit, carry);
        let both = terms.and(*bit, carry);
        let unless = terms.not(both);
        let sum = terms.and(either, unless);
        terms.equal(*name, sum);
        let clear = terms.not(*bit);
        none = terms.and(none, clear);
        carry = both;
    }
    terms.within(none, bottom);
    terms
}

/// Some and all over and, or: four laws and two that fail. The pairs are told apart by `laws`.
fn distributed(role: u16) -> Terms {
    let mut terms = Terms::new(role + 1);
    let [first, second] = terms.names();
    let both = terms.and(first, second);
    let either = terms.or(first, second);
    for kind in [7, 8] {
        let one = terms.push(kind, role, first);
        let other = terms.push(kind, role, second);
        terms.push(kind, role, both);
        terms.push(kind, role, either);
        terms.and(one, other);
        terms.or(one, other);
    }
    terms
}

/// A name that passes the next name on to all witnesses, and so on; and a nest of some-records that
/// ends outside the last name, which the first name's elements can therefore not have.
pub fn passed_on(depth: usize, role: u16) -> Terms {
    let mut terms = Terms::new(role + 1);
    let names = terms.name_list(depth);
    for (name, next) in steps(&names) {
        let all = terms.all(role, next);
        terms.within(name, all);
    }
    let [first, last] = ends(&names);
    let mut nest = terms.not(last);
    for _ in 1..depth {
        nest = terms.some(role, nest);
    }
    terms.bottom();
    terms.and(first, nest);
    terms
}

/// A name, with statements off the chain that would rule it out, one of which leads onto the chain.
pub fn asides() -> Terms {
    let mut terms = Terms::new(1);
    let (name, other, bottom) = (terms.name(), terms.name(), terms.bottom());
    let some = terms.some(0, name);
    let first = terms.aside(name, bottom);
    terms.aside(some, bottom);
    let chained = terms.within(name, some);
    terms.aside(other, bottom);
    terms.link(first, chained);
    terms
}

/// What is asked of one role says nothing of another: all of role 0 to the name, some of the last
/// role to its complement.
fn two_roles(roles: u16) -> Terms {
    let mut terms = Terms::new(roles);
    let (name, top, bottom) = (terms.name(), terms.top(), terms.bottom());
    let other = terms.not(name);
    let all = terms.all(0, name);
    let some = terms.some(roles - 1, other);
    terms.within(top, all);
    terms.within(top, some);
    terms.and(all, bottom);
    terms
}

/// Vocabularies with no survivor: by statements alone, by the first round, and by later ones.
pub fn contradictions() -> Vec<Terms> {
    let mut made = Vec::new();
    for sort in 0..5 {
        let mut terms = Terms::new(2);
        let (name, top, bottom) = (terms.name(), terms.top(), terms.bottom());
        let other = terms.not(name);
        match sort {
            0 => terms.within(top, bottom),
            1 => {
                terms.within(name, other);
                terms.within(other, name)
            }
            2 => {
                let never = terms.some(0, bottom);
                terms.within(top, never)
            }
            3 => {
                let (some, all) = (terms.some(1, name), terms.all(1, other));
                terms.within(top, some);
                terms.within(top, all)
            }
            _ => {
                let (some, none) = (terms.some(0, name), terms.some(1, bottom));
                terms.within(top, some);
                terms.within(name, none)
            }
        };
        made.push(terms);
    }
    made
}

impl Plan {
    /// All families, with pairs of terms of each sort.
    pub fn families(&mut self) {
        for count in 1..=5 {
            for roles in [1, 2, 64] {
                self.add_pairs(&witnesses(count, roles).bytes(), 2);
            }
        }
        self.ladders_and_rings();
        for bits in 1..=5 {
            self.add_pairs(&counter(bits).bytes(), 3);
        }
        for role in [0, 1, 63] {
            self.add_pairs(&distributed(role).bytes(), 4);
            self.laws(role);
        }
        self.all_duals();
        for roles in [1, 2, 3, 64] {
            self.add_pairs(&two_roles(roles).bytes(), 2);
        }
        for terms in contradictions() {
            self.add_pairs(&terms.bytes(), 3);
        }
        self.add_pairs(&asides().bytes(), 6);
        self.nests();
    }

    /// Ladders and rings, whose types go in many rounds or in none.
    fn ladders_and_rings(&mut self) {
        for count in 2..=6 {
            for ending in [Ending::Stated, Ending::SomeBottom, Ending::Open] {
                for rising in [false, true] {
                    self.add_pairs(&ladder(count, ending, rising).bytes(), 2);
                }
            }
        }
        for count in 1..=5 {
            for broken in [false, true] {
                self.add_pairs(&ring(count, broken).bytes(), 2);
            }
        }
    }

    /// Laws of some and all, and what only looks like one.
    fn laws(&mut self, role: u16) {
        let vocabulary = distributed(role).bytes();
        // Kind 7 has records 5 to 10: one, other, both, either, and, or; kind 8 has 11 to 16.
        for [a, b] in [[8, 10], [13, 15]] {
            self.add(&vocabulary, a, b, "equal ");
        }
        for [a, b] in [[7, 9], [14, 16], [8, 9], [13, 16]] {
            self.add(&vocabulary, a, b, "different ");
        }
    }

    /// Some-records and their duals.
    fn all_duals(&mut self) {
        for roles in [1, 2] {
            for count in 1..=3 {
                let vocabulary = duals(count, roles).bytes();
                let last = (vocabulary.len() / 8 - 1) as u32;
                self.add(&vocabulary, last, last - 3, "equal ");
                self.add_pairs(&vocabulary, 4);
            }
        }
    }

    /// Nests of restrictions of two to four levels.
    fn nests(&mut self) {
        for depth in 2..=4 {
            for role in [0, 5] {
                let vocabulary = passed_on(depth, role).bytes();
                let last = (vocabulary.len() / 8 - 1) as u32;
                self.add(&vocabulary, last, last - 1, "equal ");
                self.add(&vocabulary, 1, last - 1, "different ");
                self.add_pairs(&vocabulary, 3);
            }
        }
    }
}
