//! The columns of a vocabulary and a query: the section "Columns" of the paper, line by line.

use crate::vocabulary::records::{Record, A, B};

/// What a literal says of its arguments.
#[derive(Clone, Copy, Debug, PartialEq, Eq)]
pub enum Predicate {
    /// Ci: being in the term of record i.
    Member(u16),
    /// A role, by its number.
    Role(u16),
}

/// An argument of a column's literal.
#[derive(Clone, Copy, Debug, PartialEq, Eq)]
pub enum Argument {
    /// The constant a.
    Constant,
    /// The variable x.
    X,
    /// The variable y.
    Y,
    /// The Skolem term fi(x).
    Function(u16),
}

/// A literal over arguments of some sort: those of a column, or terms.
#[derive(Clone, Debug, PartialEq, Eq)]
pub struct Literal<T> {
    /// Whether it is not negated.
    pub positive: bool,
    /// What it says.
    pub predicate: Predicate,
    /// Of what it says it.
    pub arguments: Vec<T>,
}

/// A column: its literals, by position.
pub type Column = Vec<Literal<Argument>>;

impl<T> Literal<T> {
    /// The literal with its arguments replaced.
    pub fn map<U>(&self, replace: impl Fn(&T) -> U) -> Literal<U> {
        Literal {
            positive: self.positive,
            predicate: self.predicate,
            arguments: self.arguments.iter().map(replace).collect(),
        }
    }
}

/// Ci of an argument.
fn inside(i: u16, argument: Argument) -> Literal<Argument> {
    Literal {
        positive: true,
        predicate: Predicate::Member(i),
        arguments: vec![argument],
    }
}

/// ¬Ci of an argument.
fn outside(i: u16, argument: Argument) -> Literal<Argument> {
    Literal {
        positive: false,
        ..inside(i, argument)
    }
}

/// r(x,y).
fn related(r: u16) -> Literal<Argument> {
    Literal {
        positive: true,
        predicate: Predicate::Role(r),
        arguments: vec![Argument::X, Argument::Y],
    }
}

/// ¬r(x,fi(x)).
fn unrelated(r: u16, i: u16) -> Literal<Argument> {
    Literal {
        positive: false,
        predicate: Predicate::Role(r),
        arguments: vec![Argument::X, Argument::Function(i)],
    }
}

/// Whether some literal of a column has an argument.
pub fn mentions(column: &Column, argument: Argument) -> bool {
    column.iter().any(|l| l.arguments.contains(&argument))
}

/// What a script's columns come from: the records of an accepted vocabulary, the statements that
/// have a column, and the query "A within B".
pub struct Matrix {
    /// The records of the vocabulary.
    pub records: Vec<Record>,
    /// The numbers of the statements.
    pub statements: Vec<u16>,
    /// The query's A and B.
    pub query: [u16; 2],
}

impl Matrix {
    /// The columns of an owner, numbered from 0 as the paper lists them. None for a number that is
    /// no record, for a name, and for a statement off the chain.
    pub fn columns(&self, owner: u16) -> Vec<Column> {
        use Argument::Constant;
        let [a, b] = self.query;
        match self.records.get(usize::from(owner)) {
            None => Vec::new(),
            Some(_) if owner == 0 => vec![vec![outside(a, Constant)], vec![inside(b, Constant)]],
            Some(record) => self.record_columns(owner, record),
        }
    }

    /// A column of an owner; without literals where there is none.
    pub fn column(&self, owner: u16, number: u16) -> Column {
        let mut columns = self.columns(owner).into_iter();
        columns.nth(number.into()).unwrap_or_default()
    }

    /// The columns of record i.
    fn record_columns(&self, i: u16, record: &Record) -> Vec<Column> {
        let (j, k) = (record.fields[A], record.fields[B]);
        match record.kind {
            7 | 8 => restriction_columns(i, record),
            9 if self.statements.contains(&i) => {
                vec![vec![inside(j, Argument::X), outside(k, Argument::X)]]
            }
            kind => plain_columns(i, kind, j, k),
        }
    }
}

/// The columns of record i of kinds 1 to 6, of j and k.
fn plain_columns(i: u16, kind: u8, j: u16, k: u16) -> Vec<Column> {
    let [yes, no] = [inside, outside].map(|literal| move |n| literal(n, Argument::X));
    match kind {
        1 => vec![vec![no(i)]],
        2 => vec![vec![yes(i)]],
        4 => vec![vec![yes(i), yes(j)], vec![no(i), no(j)]],
        5 => vec![vec![yes(i), no(j)], vec![yes(i), no(k)], vec![no(i), yes(j), yes(k)]],
        6 => vec![vec![no(i), yes(j)], vec![no(i), yes(k)], vec![yes(i), no(j), no(k)]],
        _ => Vec::new(),
    }
}

/// The columns of record i of kinds 7 and 8, of r and j.
fn restriction_columns(i: u16, record: &Record) -> Vec<Column> {
    use Argument::{Function, X, Y};
    let (r, j) = (record.fields[A], record.fields[B]);
    match record.kind {
        7 => vec![
            vec![inside(i, X), unrelated(r, i)],
            vec![inside(i, X), outside(j, Function(i))],
            vec![outside(i, X), related(r), inside(j, Y)],
        ],
        _ => vec![
            vec![outside(i, X), unrelated(r, i)],
            vec![outside(i, X), inside(j, Function(i))],
            vec![inside(i, X), related(r), outside(j, Y)],
        ],
    }
}
