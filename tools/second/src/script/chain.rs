//! A script's chain, run: its frames, and rows 25, 20 to 23 at each step and 24 at the end.

use crate::script::columns::{Argument, Literal};
use crate::script::records::{
    chain, Script, Term, Words, COLUMN, CONSTANT_PLACE, EXTENSION, FRAME, KIND, OWNER, POSITION, REDUCTION, START,
    START_COLUMN, X, Y,
};
use crate::script::rules::Rules;
use crate::vocabulary::{refuse_if, Refusal};

/// The most frames.
pub const MOST_FRAMES: usize = 64;

/// A literal of a frame.
pub type Goal = Literal<Term>;

/// A frame: its literals, of which the first so many are closed.
pub struct Frame {
    /// The literals.
    pub literals: Vec<Goal>,
    /// How many of them are closed.
    pub closed: usize,
}

/// The frames that are open, and whether a start was run.
pub struct Machine {
    /// The open frames.
    pub frames: Vec<Frame>,
    /// Whether a start was run.
    pub started: bool,
}

impl Frame {
    /// A frame of which nothing is closed.
    fn of(literals: Vec<Goal>) -> Frame {
        Frame { literals, closed: 0 }
    }

    /// The first open literal.
    pub fn goal(&self) -> Option<&Goal> {
        self.literals.get(self.closed)
    }
}

impl Machine {
    /// The machine before the first step.
    fn empty() -> Machine {
        Machine {
            frames: Vec::new(),
            started: false,
        }
    }

    /// The first open literal of the last frame.
    pub fn goal(&self) -> Option<&Goal> {
        self.frames.last()?.goal()
    }

    /// Closes the goal. A frame whose literals are all closed goes, and closes the goal under it.
    pub fn close(&mut self) {
        while let Some(frame) = self.frames.last_mut() {
            frame.closed += 1;
            if frame.goal().is_some() {
                return;
            }
            self.frames.pop();
        }
    }
}

/// Runs the chain: the number of steps, or the first refusal.
pub fn run<R: Rules + ?Sized>(rules: &R, script: &Script) -> Result<usize, Refusal> {
    let steps = chain(&script.records);
    refuse_if(steps.is_empty(), 20, 0)?;
    let machine = run_steps(rules, script, &steps)?;
    let last = rules.last(script, &steps);
    refuse_if(!machine.frames.is_empty(), 24, last)?;
    Ok(rules.count(script, &steps))
}

/// Runs steps one after the other: the machine after them, or the first refusal.
pub fn run_steps<R: Rules + ?Sized>(rules: &R, script: &Script, steps: &[usize]) -> Result<Machine, Refusal> {
    let mut machine = Machine::empty();
    for place in steps {
        for row in rules.rows() {
            let applies = applies(rules, script, &machine, *place, *row);
            refuse_if(applies, rules.number(*row), *place)?;
        }
        take(rules, script, &mut machine, &script.record(*place));
    }
    Ok(machine)
}

/// Rows 25 and 20 to 23: whether a row's condition applies to the step at a place.
fn applies<R: Rules + ?Sized>(rules: &R, script: &Script, machine: &Machine, place: usize, row: u8) -> bool {
    let record = &script.record(place);
    let kind = record[KIND];
    match row {
        25 => machine.started && machine.frames.is_empty(),
        20 => rules.misplaced(kind == START, machine.started),
        21 => kind == EXTENSION && connection(rules, script, machine, record).is_none(),
        22 => kind == REDUCTION && !reduces(rules, script, machine, record[FRAME].into()),
        23 => {
            let full = machine.frames.len() >= rules.most_frames();
            kind == EXTENSION && full && rules.opens(&instance(script, record))
        }
        _ => false,
    }
}

/// The column of an extension, with its terms.
pub fn instance(script: &Script, record: &Words) -> Vec<Goal> {
    let column = script.matrix.column(record[OWNER], record[COLUMN]);
    with_terms(&column, record[X], record[Y])
}

/// A column's literals with term records for x and y. The constant is record 1.
fn with_terms(column: &[Literal<Argument>], x: u16, y: u16) -> Vec<Goal> {
    let term = |argument: &Argument| match *argument {
        Argument::Constant => Term::Record(CONSTANT_PLACE),
        Argument::X => Term::Record(x),
        Argument::Y => Term::Record(y),
        Argument::Function(function) => Term::Applied { function, inner: x },
    };
    column.iter().map(|literal| literal.map(term)).collect()
}

/// The position at which an extension connects with the goal, if it does.
fn connection<R: Rules + ?Sized>(rules: &R, script: &Script, machine: &Machine, record: &Words) -> Option<usize> {
    let column = instance(script, record);
    rules.connection(script, &column, record[POSITION].into(), machine.goal()?)
}

/// Whether a reduction's frame is below the last, and its own goal is the complement of the goal.
fn reduces<R: Rules + ?Sized>(rules: &R, script: &Script, machine: &Machine, number: usize) -> bool {
    let below = machine.frames.split_last().and_then(|(_, below)| below.get(number));
    let goal = machine.goal();
    below
        .zip(goal)
        .is_some_and(|(frame, goal)| rules.reduces(script, frame, goal))
}

/// Whether two literals are complements, equal terms included.
pub fn complements<R: Rules + ?Sized>(rules: &R, script: &Script, l: &Goal, m: &Goal) -> bool {
    let mut pairs = l.arguments.iter().zip(&m.arguments);
    l.positive != m.positive && l.predicate == m.predicate && pairs.all(|(s, t)| rules.same_term(script, *s, *t))
}

/// Takes a step that no row refuses.
fn take<R: Rules + ?Sized>(rules: &R, script: &Script, machine: &mut Machine, record: &Words) {
    match record[KIND] {
        START => {
            let column = script.matrix.column(0, record[START_COLUMN]);
            machine.started = true;
            machine.frames.push(Frame::of(with_terms(&column, 0, 0)));
        }
        EXTENSION => {
            let column = instance(script, record);
            let at = connection(rules, script, machine, record).unwrap_or(0);
            let others = rules.others(&column, at);
            if others.is_empty() {
                rules.close(machine);
            } else {
                machine.frames.push(Frame::of(others));
            }
        }
        _ => rules.close(machine),
    }
}
