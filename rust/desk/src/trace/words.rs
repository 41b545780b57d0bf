//! A trace as text.

use super::run::{others, Frame, Goal, Step, Term, Trace, Why};
use crate::columns::{braced, Literal, Sign};
use crate::display::counted;
use crate::input::Input;
use crate::script::{Entry, Extension};
use crate::text;
use base::vocabulary::Saying;

/// How many frames are listed after a step if there are more: the last ones.
const LISTED: usize = 8;

/// The texts of terms.
pub struct Words<'a> {
    /// Those of the vocabulary.
    pub vocabulary: &'a text::vocabulary::Written,
    /// Those of the script.
    pub script: text::script::Written,
    /// The script as it was given, which may have lines.
    pub input: Option<&'a Input>,
}

impl Words<'_> {
    /// The whole text.
    pub fn trace(&self, trace: &Trace) -> String {
        let [a, b] = trace.query.map(|number| self.vocabulary.term(number));
        let mut lines = vec![format!("query: {a}, within {b}")];
        for (i, step) in trace.steps.iter().enumerate() {
            let refused = trace.refused.filter(|_| i + 1 == trace.steps.len());
            let (record, line) = (step.record, self.line(step));
            let line = line.map(|line| format!(" (line {line})")).unwrap_or_default();
            lines.push(format!("step {}, record {record}{line}: {}", i + 1, self.heading(step)));
            lines.extend(self.connection(step));
            lines.extend(self.goal_words(step).map(|words| format!("  in words: {words}")));
            lines.extend(self.frames(step, refused));
        }
        if let Some(why) = trace.refused {
            lines.push(format!("  refused, {}: {}", why.number(), self.why(trace, why)));
        }
        lines.push(String::new());
        lines.join("\n")
    }

    /// The line of a step, where the script was given as a text.
    pub fn line(&self, step: &Step) -> Option<usize> {
        let (line, _) = self.input?.line_of(step.record as u32)?;
        Some(line)
    }

    /// What a step does.
    fn heading(&self, step: &Step) -> String {
        match step.entry {
            Entry::Start(column) => format!("start with query column {column}"),
            Entry::Extend(e) => self.extension(e),
            Entry::Reduce(frame) => format!("reduce with frame {frame}"),
            Entry::Constant | Entry::Function(..) => "no step".to_string(),
        }
    }

    fn extension(&self, e: Extension) -> String {
        let owner = match e.owner {
            0 => "the query".to_string(),
            owner => self.vocabulary.called(owner),
        };
        let y = match e.y {
            0 => String::new(),
            y => format!(", y = {}", self.script.named(y)),
        };
        let (number, column, x) = (e.owner, e.column, self.script.named(e.x));
        format!("extend by owner {number}, {owner}, column {column}, x = {x}{y}")
    }

    /// The goal and what stands against it.
    fn connection(&self, step: &Step) -> Option<String> {
        let against = step.against.map(|literal| self.literal(literal)).unwrap_or_default();
        let goal = step.goal.map(|goal| self.literal(goal));
        Some(match (step.entry, goal) {
            (Entry::Extend(e), Some(goal)) => {
                let (position, column) = (e.position, self.column(&step.column));
                format!("  goal {goal}, against {against} at position {position} of {column}")
            }
            (Entry::Reduce(frame), Some(goal)) if step.against.is_some() => {
                format!("  goal {goal}, against {against}, the goal of frame {frame}")
            }
            (Entry::Reduce(_), goal) => format!("  goal {}", goal?),
            _ => format!("  column {}", self.column(&step.column)),
        })
    }

    /// A line for each frame after a step; the last has a mark. Only the last can have changed, so that of many frames
    /// the lower are left out, but not at the end of a chain that is refused.
    fn frames(&self, step: &Step, refused: Option<Why>) -> Vec<String> {
        let count = step.frames.len();
        let left_out = match refused {
            None if count > LISTED + 1 => count - LISTED,
            _ => 0,
        };
        let mut lines = Vec::new();
        if left_out > 0 {
            lines.push(format!("  frames 0 to {}: as before", left_out - 1));
        }
        for (number, frame) in step.frames.iter().enumerate().skip(left_out) {
            let mark = if number + 1 == count { '>' } else { ' ' };
            lines.push(format!("{mark} frame {number}: {}", self.literals(frame).join(", ")));
        }
        if count == 0 {
            let started = refused != Some(Why::NoStart);
            let words = if started { "all is closed" } else { "no frame is open" };
            lines.push(format!("  {words}"));
        }
        lines
    }

    /// The goal of a step as a sentence, where the vocabulary has words.
    pub fn goal_words(&self, step: &Step) -> Option<String> {
        let goal = step.goal.filter(|_| self.vocabulary.has_words())?;
        let is = match goal.sign() {
            Sign::Is => "is",
            Sign::Not => "is not",
        };
        let (sentence, terms) = match goal {
            Literal::In(_, record, t) => {
                let sentence = format!("{} {is} in {}", self.term(t), self.vocabulary.term(record));
                (sentence, vec![t])
            }
            Literal::Pair(_, role, s, t) => {
                let role = match self.vocabulary.names().role(role) {
                    Some(_) => self.vocabulary.role(role),
                    None => role.to_string(),
                };
                let sentence = format!("the pair ({}, {}) {is} in role {role}", self.term(s), self.term(t));
                (sentence, if s == t { vec![t] } else { vec![s, t] })
            }
        };
        let witnesses = terms.into_iter().filter_map(|term| self.witness(term));
        Some(witnesses.fold(sentence, |all, witness| format!("{all}; {witness}")))
    }

    /// What a function stands for: an element by which a restriction holds, or fails.
    fn witness(&self, term: Term) -> Option<String> {
        let (function, inner) = match term {
            Term::Function(function, inner) => (function, inner),
            Term::Record(record) => self.script.function(record)?,
        };
        let what = match self.vocabulary.vocabulary().get(usize::from(function)).saying() {
            Some(Saying::All(..)) => "the counterexample to",
            _ => "the witness of",
        };
        let (term, record, inner) = (
            self.term(term),
            self.vocabulary.term(function),
            self.script.named(inner),
        );
        Some(format!("{term} is {what} {record}, at {inner}"))
    }

    /// Why a chain is refused, to go behind the words of the refusal: what they say is not said again.
    pub fn reason(&self, trace: &Trace, why: Why) -> String {
        match (why, trace.steps.last()) {
            (Why::Open, Some(step)) => self.left(&step.frames),
            (Why::AllClosed, _) => format!("all was closed by step {}", trace.steps.len() - 1),
            _ => self.why(trace, why),
        }
    }

    /// Why the last step is refused, in detail.
    pub fn why(&self, trace: &Trace, why: Why) -> String {
        let Some(step) = trace.steps.last() else {
            return "the chain has no step; the first has to be a start".to_string();
        };
        let before = trace.steps.len() - 1;
        match why {
            Why::NoStep | Why::NoStart => "the first step of the chain has to be a start".to_string(),
            Why::LaterStart => "step 1 is the start, and a chain has one start only".to_string(),
            Why::Extension => format!("{} at the position {}", self.against(step), self.difference(step)),
            Why::NotBelow => not_below(step),
            Why::Reduction => {
                let (literal, difference) = (self.against(step), self.difference(step));
                format!("{literal}, the goal of that frame, {difference}")
            }
            Why::Frames => self.too_many(step),
            Why::Open => {
                let frames = counted(step.frames.len() as u64, "frame");
                format!("the chain ends with {frames} left; {}", self.left(&step.frames))
            }
            Why::AllClosed => format!("all was closed by step {before}, and no step may follow"),
        }
    }

    fn against(&self, step: &Step) -> String {
        step.against.map(|literal| self.literal(literal)).unwrap_or_default()
    }

    /// In what a literal differs from the complement of the goal.
    fn difference(&self, step: &Step) -> String {
        let (Some(goal), Some(against)) = (step.goal, step.against) else {
            return "is missing".to_string();
        };
        let [goal_name, name] = [goal, against].map(|literal| literal.predicate());
        let [goal_terms, terms] = [goal, against].map(|literal| self.terms(literal));
        let difference = if goal_name != name {
            format!("its predicate is {name}, the goal's {goal_name}")
        } else if goal.sign() == against.sign() {
            "their signs are the same".to_string()
        } else {
            format!("its terms are ({terms}), the goal's ({goal_terms})")
        };
        format!("is not the complement of the goal {}: {difference}", self.literal(goal))
    }

    fn too_many(&self, step: &Step) -> String {
        let rest = match step.entry {
            Entry::Extend(e) => self.column(&others(&step.column, e.position)),
            _ => String::new(),
        };
        format!("{} frames are open, and {rest} would be one more", step.frames.len())
    }

    /// The literals that have yet to be closed by steps, in the order in which they become goals. The goal of a frame
    /// below the last is closed with the frame above it.
    fn left(&self, frames: &[Frame]) -> String {
        let last_first = frames.iter().rev().enumerate();
        let left = last_first.flat_map(|(above, frame)| frame.iter().skip(usize::from(above > 0)));
        let left: Vec<String> = left.map(|literal| self.literal(*literal)).collect();
        format!("still to be closed: {}", left.join(", "))
    }

    /// A column in braces.
    fn column(&self, literals: &[Goal]) -> String {
        braced(&self.literals(literals))
    }

    /// The texts of literals.
    pub fn literals(&self, literals: &[Goal]) -> Vec<String> {
        literals.iter().map(|literal| self.literal(*literal)).collect()
    }

    /// The text of a literal.
    pub fn literal(&self, literal: Goal) -> String {
        literal.text(|term| self.term(*term))
    }

    fn terms(&self, literal: Goal) -> String {
        literal.terms(|term| self.term(*term))
    }

    fn term(&self, term: Term) -> String {
        match term {
            Term::Record(record) => self.script.named(record),
            Term::Function(function, inner) => self.script.applied(function, inner),
        }
    }
}

fn not_below(step: &Step) -> String {
    let Entry::Reduce(frame) = step.entry else {
        return String::new();
    };
    let last = step.frames.len().saturating_sub(1);
    if usize::from(frame) == last {
        format!("frame {frame} is the last, and a reduction needs a frame below it")
    } else {
        format!("there is no frame {frame}; the last is frame {last}")
    }
}
