//! The types of a vocabulary, the pairs allowed for a role, the types that a set serves, and the
//! rounds: the section "Types and comparison" of the paper, sentence by sentence.

use crate::vocabulary::chain;
use crate::vocabulary::records::{at, Record, A, B};

/// The kind of "some role A to B".
pub const SOME: u8 = 7;
/// The kind of "all role A to B".
pub const ALL: u8 = 8;

/// The records of an accepted vocabulary, with the truth of each at each type.
pub struct Types {
    /// The records.
    pub records: Vec<Record>,
    /// The records of kinds 7 and 8.
    pub restrictions: Vec<Restriction>,
    /// For each record its truth at each type; false for bottom and for records that are no term.
    truths: Vec<Vec<bool>>,
}

/// A record of kind 7 or 8.
#[derive(Clone, Copy)]
pub struct Restriction {
    /// The number of the record.
    pub number: usize,
    /// Its kind.
    pub kind: u8,
    /// Its role, A.
    pub role: u16,
    /// The number of its term, B.
    pub filler: usize,
}

/// A set of types, rising.
pub type Set = Vec<usize>;

/// The numbers of the atoms, in record order.
pub fn atoms(records: &[Record]) -> Vec<usize> {
    let all = records
        .iter()
        .enumerate()
        .skip(1)
        .filter(|(_, record)| record.is_atom());
    all.map(|(number, _)| number).collect()
}

/// The statements on the chain.
pub fn chained(records: &[Record]) -> Vec<Record> {
    let numbers = chain(records).into_iter().map(usize::from);
    numbers.map(|number| at(records, number)).collect()
}

/// Whether a record is true at a type; false where there is no such record or type.
fn truth(truths: &[Vec<bool>], number: usize, t: usize) -> bool {
    truths
        .get(number)
        .and_then(|record| record.get(t))
        .is_some_and(|truth| *truth)
}

/// The truth of each record at each type, in record order.
fn truths(records: &[Record]) -> Vec<Vec<bool>> {
    let atoms = atoms(records);
    let mut truths: Vec<Vec<bool>> = Vec::new();
    for (number, record) in records.iter().enumerate() {
        let [a, b] = record.operands();
        let of = |operand: usize, t: usize| truth(&truths, operand, t);
        let atom = atoms.iter().position(|atom| *atom == number);
        let own = |t: usize| match record.kind {
            1 => true,
            4 => !of(a, t),
            5 => of(a, t) && of(b, t),
            6 => of(a, t) || of(b, t),
            _ => atom.is_some_and(|j| t >> j & 1 == 1),
        };
        truths.push((0..1 << atoms.len()).map(own).collect());
    }
    truths
}

impl Types {
    /// The types of an accepted vocabulary.
    pub fn of(records: Vec<Record>) -> Types {
        let restriction = |(number, record): (usize, &Record)| Restriction {
            number,
            kind: record.kind,
            role: record.fields[A],
            filler: usize::from(record.fields[B]),
        };
        let restrictions = records.iter().enumerate().map(restriction);
        Types {
            truths: truths(&records),
            restrictions: restrictions.filter(|r| r.kind == SOME || r.kind == ALL).collect(),
            records,
        }
    }

    /// How many types there are.
    pub fn count(&self) -> usize {
        self.truths.first().map_or(0, Vec::len)
    }

    /// Whether a term is true at a type.
    pub fn is_true(&self, term: usize, t: usize) -> bool {
        truth(&self.truths, term, t)
    }

    /// Whether a statement holds at a type.
    pub fn holds(&self, statement: &Record, t: usize) -> bool {
        let [a, b] = statement.operands();
        !self.is_true(a, t) || self.is_true(b, t)
    }

    /// Whether the pair (t, s) is allowed for a role.
    pub fn allowed(&self, role: u16, t: usize, s: usize) -> bool {
        self.keeps(&self.bounds(role, t), s)
    }

    /// What the partners of t for a role have to keep to: every kind-7 record of the role false at
    /// t, and every kind-8 record of the role true at t.
    fn bounds(&self, role: u16, t: usize) -> Vec<Restriction> {
        let bounds = |r: &&Restriction| r.role == role && self.is_true(r.number, t) == (r.kind == ALL);
        self.restrictions.iter().filter(bounds).copied().collect()
    }

    /// Whether a type keeps to bounds: has B false for kind 7, and B true for kind 8.
    fn keeps(&self, bounds: &[Restriction], s: usize) -> bool {
        let keeps = |r: &Restriction| self.is_true(r.filler, s) == (r.kind == ALL);
        bounds.iter().all(keeps)
    }

    /// Whether a restriction asks for a witness at a type: kind 7 where true, kind 8 where false.
    pub fn asks(&self, r: &Restriction, t: usize) -> bool {
        self.is_true(r.number, t) == (r.kind == SOME)
    }

    /// Whether s has the filler that a witness of a restriction needs: true for kind 7, false for
    /// kind 8.
    pub fn fills(&self, r: &Restriction, s: usize) -> bool {
        self.is_true(r.filler, s) == (r.kind == SOME)
    }

    /// Whether a type is served by a set.
    pub fn served(&self, set: &Set, t: usize) -> bool {
        let mut asking = self.restrictions.iter().filter(|r| self.asks(r, t));
        asking.all(|r| {
            let bounds = self.bounds(r.role, t);
            let is_witness = |s: &usize| self.fills(r, *s) && self.keeps(&bounds, *s);
            set.iter().any(is_witness)
        })
    }

    /// The types at which each of the statements holds.
    pub fn first_set(&self, statements: &[Record]) -> Set {
        let all_hold = |t: &usize| statements.iter().all(|s| self.holds(s, *t));
        (0..self.count()).filter(all_hold).collect()
    }

    /// The survivors, and the number of rounds that removed something.
    pub fn survivors(&self) -> (Set, usize) {
        self.settle(self.first_set(&chained(&self.records)))
    }

    /// What rounds leave of a set, and how many of them removed something.
    pub fn settle(&self, first: Set) -> (Set, usize) {
        let mut set = first;
        let mut rounds = 0;
        loop {
            let left = self.round(&set);
            if left.len() == set.len() {
                return (set, rounds);
            }
            set = left;
            rounds += 1;
        }
    }

    /// What one round leaves of a set: the types that the set, as the round began, serves.
    pub fn round(&self, set: &Set) -> Set {
        let served = |t: &usize| self.served(set, *t);
        set.iter().copied().filter(served).collect()
    }
}
