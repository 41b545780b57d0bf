//! Vocabularies whose statements put names, top and bottom within each other, so that one of these lies within another
//! exactly if a way of statements leads there. What else stands in them (restrictions, other terms, statements off the
//! chain) takes nothing away and adds nothing.

use crate::classification::taxonomy::{Order, Table};
use crate::comparison::Terms;
use crate::random::Random;
use crate::vocabulary::records::Record;

/// The roles of these vocabularies.
const ROLES: u16 = 3;

/// A name by its place, top or bottom.
#[derive(Clone, Copy, Debug, PartialEq, Eq)]
pub enum Node {
    /// The name of a place in record order.
    Name(usize),
    /// Top.
    Top,
    /// Bottom.
    Bottom,
}

use Node::{Bottom, Name, Top};

/// Names, and which of them, top and bottom are stated to lie within which.
#[derive(Clone)]
pub struct Stated {
    /// How many names there are.
    count: usize,
    /// The inclusions stated.
    inclusions: Vec<[Node; 2]>,
}

impl Stated {
    /// So many names, and inclusions between them.
    pub fn new(count: usize, inclusions: &[[usize; 2]]) -> Stated {
        let named = inclusions.iter().map(|[a, b]| [Name(*a), Name(*b)]);
        Stated {
            count,
            inclusions: named.collect(),
        }
    }

    /// How many names there are.
    pub fn count(&self) -> usize {
        self.count
    }

    /// The same with an inclusion more.
    pub fn and(mut self, a: Node, b: Node) -> Stated {
        self.inclusions.push([a, b]);
        self
    }

    /// The same with the name at each place put to another place.
    pub fn renamed(&self, places: &[usize]) -> Stated {
        let moved = |node: &Node| match node {
            Name(place) => Name(places.get(*place).copied().unwrap_or(0)),
            other => *other,
        };
        let both = |[a, b]: &[Node; 2]| [moved(a), moved(b)];
        Stated {
            count: self.count,
            inclusions: self.inclusions.iter().map(both).collect(),
        }
    }

    /// The nodes to which ways lead from one: itself, top, and what the statements say, from bottom everything.
    fn reached(&self, from: Node) -> Vec<Node> {
        let mut reached = vec![from, Top];
        let mut done = 0;
        while let Some(node) = reached.get(done).copied() {
            done += 1;
            let stated = self.inclusions.iter().filter(|[a, _]| *a == node).map(|[_, b]| *b);
            let every = (0..self.count).map(Name).filter(|_| node == Bottom);
            for next in stated.chain(every) {
                if !reached.contains(&next) {
                    reached.push(next);
                }
            }
        }
        reached
    }

    /// The table of nearest broader names.
    pub fn table(&self) -> Table {
        let reached: Vec<Vec<Node>> = (0..self.count).map(|i| self.reached(Name(i))).collect();
        let within = |i: usize, j: usize| reached.get(i).is_some_and(|all| all.contains(&Name(j)));
        Order::by(self.count, within).table()
    }

    /// The vocabulary: the names, top, bottom, then the statements.
    pub fn plain(&self) -> Vec<u8> {
        let mut terms = Terms::new(0);
        let names = terms.name_list(self.count);
        let ends = [terms.top(), terms.bottom()];
        self.state(&mut terms, &names, ends);
        terms.bytes()
    }

    /// The vocabulary with other records before, among and behind the names: each time fewer than a number, and in all
    /// so many restrictions. The names' labels rise or fall.
    pub fn among_others(&self, fewer: usize, restrictions: usize, random: &mut Random) -> Vec<u8> {
        let mut terms = Terms::new(ROLES);
        let ends = [terms.top(), terms.bottom()];
        let labels = random.pick(&[0, u16::MAX]).unwrap_or(0);
        let mut left = restrictions;
        let mut names: Vec<u16> = Vec::new();
        for _ in 0..=self.count {
            for _ in 0..random.below(fewer) {
                left -= usize::from(push_other(&mut terms, left > 0, random));
            }
            if names.len() < self.count {
                let label = labels ^ terms.len() as u16;
                names.push(terms.push(3, label, 0));
            }
        }
        self.state(&mut terms, &names, ends);
        while left > 0 {
            left -= usize::from(push_other(&mut terms, true, random));
        }
        terms.bytes()
    }

    /// Pushes the statements, on the chain.
    fn state(&self, terms: &mut Terms, names: &[u16], [top, bottom]: [u16; 2]) {
        let number = |node: &Node| match node {
            Name(place) => names.get(*place).copied().unwrap_or(0),
            Top => top,
            Bottom => bottom,
        };
        for [a, b] in &self.inclusions {
            terms.within(number(a), number(b));
        }
    }
}

/// Pushes a record that leaves the order of names as it is, and answers whether it is a restriction.
fn push_other(terms: &mut Terms, restriction: bool, random: &mut Random) -> bool {
    let numbers: Vec<u16> = (1..).zip(terms.records()).filter(is_term).map(|(n, _)| n).collect();
    let [a, b] = [0, 1].map(|_| random.pick(&numbers).unwrap_or(1));
    let role = random.below(usize::from(ROLES)) as u16;
    match random.below(if restriction { 9 } else { 6 }) {
        0 => terms.not(a),
        1 => terms.and(a, b),
        2 => terms.or(a, b),
        3 | 4 => terms.aside(a, b),
        5 => terms.within(a, a),
        6 | 7 => terms.some(role, b),
        _ => terms.all(role, b),
    };
    terms
        .records()
        .last()
        .is_some_and(|record| matches!(record.kind, 7 | 8))
}

/// Whether a numbered record is a term.
fn is_term((_, record): &(u16, &Record)) -> bool {
    record.is_term()
}
