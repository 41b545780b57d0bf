//! A small connection prover: it closes a goal by reduction against its path, or by an extension
//! whose other literals it closes in turn. Its terms are ground, so that the literals of a column
//! are closed one without the other; a bound on the path is raised until a derivation is found.

use crate::random::Random;
use crate::script::columns::{Argument, Column, Literal, Matrix, Predicate};

/// A term: its functions, from the outermost to the constant.
pub type Term = Vec<u16>;

/// A literal that is to be closed.
type Goal = Literal<Term>;

/// A step of a derivation.
#[derive(Clone, Debug)]
pub enum Step {
    /// A start, by a column of the query.
    Start(u16),
    /// An extension.
    Extension(Extension),
    /// A reduction, against a frame.
    Reduction(u16),
}

/// An extension; y is none where no y stands in the column.
#[derive(Clone, Debug)]
pub struct Extension {
    /// The owner of the column.
    pub owner: u16,
    /// The column, by its number.
    pub column: u16,
    /// The term for x.
    pub x: Term,
    /// The term for y.
    pub y: Option<Term>,
    /// The position of the literal that connects.
    pub position: u16,
}

/// A way to close a goal: a step, and the goals that it leaves.
type Way = (Step, Vec<Goal>);

/// Terms for x and y, as far as they are known.
#[derive(Clone, Default)]
struct Binding {
    /// The term for x.
    x: Option<Term>,
    /// The term for y.
    y: Option<Term>,
}

/// The search for a derivation.
pub struct Prover<'a> {
    /// The columns, each with its owner and its number.
    columns: Vec<(u16, u16, Column)>,
    /// The restrictions by role, which name the role's pairs.
    functions: Vec<(u16, u16)>,
    /// The source of random choices.
    pub random: &'a mut Random,
    /// How many more goals may be tried.
    tries: usize,
}

/// How many goals are tried for one bound.
const TRIES: usize = 3_000;

impl Binding {
    /// The binding extended so that a column's argument is a term, or nothing where it cannot be.
    fn with(&self, argument: Argument, term: &Term) -> Option<Binding> {
        let mut bound = self.clone();
        let (variable, value) = match argument {
            Argument::Constant => return term.is_empty().then_some(bound),
            Argument::X => (&mut bound.x, term.clone()),
            Argument::Y => (&mut bound.y, term.clone()),
            Argument::Function(function) => {
                let (outer, inner) = term.split_first()?;
                if *outer != function {
                    return None;
                }
                (&mut bound.x, inner.to_vec())
            }
        };
        let known = variable.get_or_insert_with(|| value.clone());
        (*known == value).then_some(bound)
    }
}

/// Whether two literals have the same predicate and other signs.
pub fn opposed<T, U>(l: &Literal<T>, m: &Literal<U>) -> bool {
    l.positive != m.positive && l.predicate == m.predicate
}

/// A column's literal with terms for its arguments.
fn ground(literal: &Literal<Argument>, x: &Term, y: &Term) -> Goal {
    literal.map(|argument| match argument {
        Argument::Constant => Term::new(),
        Argument::X => x.clone(),
        Argument::Y => y.clone(),
        Argument::Function(function) => applied(*function, x),
    })
}

/// A function applied to a term.
pub fn applied(function: u16, term: &[u16]) -> Term {
    [&[function], term].concat()
}

/// The role of which a column has r(x,y).
fn open_role(column: &Column) -> Option<u16> {
    column.iter().find_map(|literal| match literal.predicate {
        Predicate::Role(role) if literal.arguments.contains(&Argument::Y) => Some(role),
        _ => None,
    })
}

impl<'a> Prover<'a> {
    /// The search over a matrix.
    pub fn new(matrix: &Matrix, random: &'a mut Random) -> Prover<'a> {
        let mut columns = Vec::new();
        let mut functions = Vec::new();
        for (owner, record) in (0..).zip(&matrix.records) {
            let numbered = (0..).zip(matrix.columns(owner));
            columns.extend(numbered.map(|(number, column)| (owner, number, column)));
            if record.kind == 7 || record.kind == 8 {
                functions.push((record.fields[0], owner));
            }
        }
        Prover {
            columns,
            functions,
            random,
            tries: 0,
        }
    }

    /// A derivation whose paths are at most so many literals longer than the first goal, for bounds
    /// from the first to the last, if one is found.
    pub fn derive(&mut self, first: usize, last: usize) -> Option<Vec<Step>> {
        (first..=last).find_map(|bound| {
            self.tries = TRIES;
            let mut starts = [0, 1];
            self.random.shuffle(&mut starts);
            starts.iter().find_map(|start| self.derive_from(*start, bound))
        })
    }

    /// The literal of one of the query's columns.
    pub fn start(&self, column: u16) -> Option<Goal> {
        let query = self.columns.iter().find(|c| c.0 == 0 && c.1 == column);
        Some(ground(query?.2.first()?, &Term::new(), &Term::new()))
    }

    /// A derivation from one of the query's columns.
    fn derive_from(&mut self, start: u16, bound: usize) -> Option<Vec<Step>> {
        let goal = self.start(start)?;
        let mut steps = vec![Step::Start(start)];
        self.close(&goal, &mut Vec::new(), bound, &mut steps).then_some(steps)
    }

    /// Closes a goal above its path, and adds the steps. Answers whether it could.
    fn close(&mut self, goal: &Goal, path: &mut Vec<Goal>, bound: usize, steps: &mut Vec<Step>) -> bool {
        if self.tries == 0 {
            return false;
        }
        self.tries -= 1;
        for (step, others) in self.ways(goal, path) {
            // A goal that is on its path already would only be closed again.
            let again = others.iter().any(|o| o == goal || path.contains(o));
            if again || (bound == 0 && !others.is_empty()) {
                continue;
            }
            let before = steps.len();
            steps.push(step);
            path.push(goal.clone());
            let closed = others.iter().all(|o| self.close(o, path, bound - 1, steps));
            path.pop();
            if closed {
                return true;
            }
            steps.truncate(before);
        }
        false
    }

    /// All ways to close a goal, in random order, or short ones first.
    pub fn ways(&mut self, goal: &Goal, path: &[Goal]) -> Vec<Way> {
        let frames = (0..).zip(path);
        let reduced = frames.filter(|(_, own)| opposed(*own, goal) && own.arguments == goal.arguments);
        let mut ways: Vec<Way> = reduced.map(|(frame, _)| (Step::Reduction(frame), Vec::new())).collect();
        for (owner, number, column) in &self.columns {
            for (position, literal) in column.iter().enumerate() {
                for (x, y) in self.bindings(column, literal, goal) {
                    let extension = Extension {
                        owner: *owner,
                        column: *number,
                        position: position as u16,
                        y: open_role(column).map(|_| y.clone()),
                        x: x.clone(),
                    };
                    let others = column.iter().enumerate().filter(|(at, _)| *at != position);
                    let others = others.map(|(_, literal)| ground(literal, &x, &y)).collect();
                    ways.push((Step::Extension(extension), others));
                }
            }
        }
        self.random.shuffle(&mut ways);
        if self.random.chance(2) {
            ways.sort_by_key(|(_, others)| others.len());
        }
        ways
    }

    /// The terms for x and y with which a column connects with a goal by one of its literals. An open y
    /// is a function of x that the role has, and an open x what the goal's function is applied to.
    fn bindings(&self, column: &Column, literal: &Literal<Argument>, goal: &Goal) -> Vec<(Term, Term)> {
        if !opposed(literal, goal) {
            return Vec::new();
        }
        let mut pairs = literal.arguments.iter().zip(&goal.arguments);
        let bound = pairs.try_fold(Binding::default(), |bound, (argument, term)| {
            bound.with(*argument, term)
        });
        match bound {
            None => Vec::new(),
            Some(Binding { x: Some(x), y: Some(y) }) => vec![(x, y)],
            Some(Binding { x: None, y: Some(y) }) => {
                let inner = y.get(1..).unwrap_or(&[]).to_vec();
                vec![(inner, y)]
            }
            Some(Binding { x, y: None }) => self.open_bindings(column, x.unwrap_or_default()),
        }
    }

    /// The terms for y where x is known: any, if there is none in the column.
    fn open_bindings(&self, column: &Column, x: Term) -> Vec<(Term, Term)> {
        let Some(role) = open_role(column) else {
            return vec![(x, Term::new())];
        };
        let of_role = self.functions.iter().filter(|(r, _)| *r == role);
        of_role.map(|(_, f)| (x.clone(), applied(*f, &x))).collect()
    }
}
