//! Literals, and the column list of docs/FORMATS.md, section 4.

use base::vocabulary::{Saying, Vocabulary};

/// The sign of a literal.
#[derive(Clone, Copy, Debug, PartialEq, Eq)]
pub enum Sign {
    /// Without ¬.
    Is,
    /// With ¬.
    Not,
}

/// A literal: sign, predicate, terms.
#[derive(Clone, Copy, Debug, PartialEq, Eq)]
pub enum Literal<T> {
    /// `Ci(t)`, i a record of the vocabulary.
    In(Sign, u16, T),
    /// `r(s,t)`, r a role.
    Pair(Sign, u16, T, T),
}

impl<T> Literal<T> {
    /// Its sign.
    pub fn sign(&self) -> Sign {
        match self {
            Literal::In(sign, ..) | Literal::Pair(sign, ..) => *sign,
        }
    }

    /// The same with the other sign.
    pub fn complement(self) -> Literal<T> {
        let sign = match self.sign() {
            Sign::Is => Sign::Not,
            Sign::Not => Sign::Is,
        };
        match self {
            Literal::In(_, i, t) => Literal::In(sign, i, t),
            Literal::Pair(_, r, s, t) => Literal::Pair(sign, r, s, t),
        }
    }

    /// Its predicate: `C4` for term 4, `r0` for role 0.
    pub fn predicate(&self) -> String {
        match self {
            Literal::In(_, record, _) => format!("C{record}"),
            Literal::Pair(_, role, ..) => format!("r{role}"),
        }
    }

    /// The texts of its terms.
    pub fn terms(&self, term: impl Fn(&T) -> String) -> String {
        match self {
            Literal::In(_, _, t) => term(t),
            Literal::Pair(_, _, s, t) => format!("{},{}", term(s), term(t)),
        }
    }

    /// Its text.
    pub fn text(&self, term: impl Fn(&T) -> String) -> String {
        let sign = match self.sign() {
            Sign::Is => "",
            Sign::Not => "¬",
        };
        format!("{sign}{}({})", self.predicate(), self.terms(term))
    }

    /// The same with other terms.
    pub fn with<U>(self, term: impl Fn(T) -> U) -> Literal<U> {
        match self {
            Literal::In(sign, i, t) => Literal::In(sign, i, term(t)),
            Literal::Pair(sign, r, s, t) => Literal::Pair(sign, r, term(s), term(t)),
        }
    }
}

/// What stands in a column of the list where a term goes.
#[derive(Clone, Copy, Debug, PartialEq, Eq)]
pub enum Place {
    /// The constant a.
    A,
    /// x
    X,
    /// y
    Y,
    /// The owner's function of x.
    F,
}

/// A column of the list.
pub type Column = Vec<Literal<Place>>;

use Place::{A, F, X, Y};

/// The literals of the query's columns where no query is known.
pub const QUERY: [&str; 2] = ["¬CA(a)", "CB(a)"];

/// The columns of a record of an accepted vocabulary; a statement off the chain has none.
pub fn of_record(vocabulary: &Vocabulary, chained: &[bool], i: u16) -> Vec<Column> {
    match vocabulary.get(usize::from(i)).saying() {
        Some(Saying::Within(..)) if chained.get(usize::from(i)) != Some(&true) => vec![],
        Some(saying) if i > 0 => columns(i, saying),
        _ => vec![],
    }
}

/// Whether a y stands in a column.
pub fn has_y(column: &Column) -> bool {
    column
        .iter()
        .any(|literal| matches!(literal, Literal::Pair(_, _, _, Y)))
}

/// The texts of a column's literals; `owner` is the record whose function stands in it.
pub fn literals(owner: u16, column: &Column) -> Vec<String> {
    let term = |place: &Place| match place {
        A => "a".to_string(),
        X => "x".to_string(),
        Y => "y".to_string(),
        F => format!("f{owner}(x)"),
    };
    column.iter().map(|literal| literal.text(term)).collect()
}

/// Literals as a column, in braces.
pub fn braced(literals: &[String]) -> String {
    format!("{{{}}}", literals.join(", "))
}

/// The columns of the query "a within b", owner 0.
pub fn query(a: u16, b: u16) -> Vec<Column> {
    vec![vec![not(a, A)], vec![is(b, A)]]
}

/// The columns of record `i`.
pub fn columns(i: u16, saying: Saying) -> Vec<Column> {
    match saying {
        Saying::Top => vec![vec![not(i, X)]],
        Saying::Bottom => vec![vec![is(i, X)]],
        Saying::Name(_) => vec![],
        Saying::Not(j) => vec![vec![is(i, X), is(j, X)], vec![not(i, X), not(j, X)]],
        Saying::And(j, k) => vec![
            vec![is(i, X), not(j, X)],
            vec![is(i, X), not(k, X)],
            vec![not(i, X), is(j, X), is(k, X)],
        ],
        Saying::Or(j, k) => vec![
            vec![not(i, X), is(j, X)],
            vec![not(i, X), is(k, X)],
            vec![is(i, X), not(j, X), not(k, X)],
        ],
        Saying::Some(r, j) => vec![
            vec![is(i, X), no_pair(r, X, F)],
            vec![is(i, X), not(j, F)],
            vec![not(i, X), pair(r, X, Y), is(j, Y)],
        ],
        Saying::All(r, j) => vec![
            vec![not(i, X), no_pair(r, X, F)],
            vec![not(i, X), is(j, F)],
            vec![is(i, X), pair(r, X, Y), not(j, Y)],
        ],
        Saying::Within(a, b) => vec![vec![is(a, X), not(b, X)]],
    }
}

fn is(i: u16, t: Place) -> Literal<Place> {
    Literal::In(Sign::Is, i, t)
}

fn not(i: u16, t: Place) -> Literal<Place> {
    Literal::In(Sign::Not, i, t)
}

fn pair(r: u16, s: Place, t: Place) -> Literal<Place> {
    Literal::Pair(Sign::Is, r, s, t)
}

fn no_pair(r: u16, s: Place, t: Place) -> Literal<Place> {
    Literal::Pair(Sign::Not, r, s, t)
}
