//! The replay of a script that keeps the form: its frames, step by step.

use crate::columns::{columns, query, Column, Literal, Place};
use crate::script::{chained, Entry, Extension, Words};
use base::vocabulary::Vocabulary;
use judge::Refusal;

/// A term. One that a record says is always named by the first that says it, so that equal values are equal terms.
#[derive(Clone, Copy, Debug, PartialEq, Eq)]
pub enum Term {
    /// The term of a script record.
    Record(u16),
    /// A function of the term of a script record, where no record says it.
    Function(u16, u16),
}

/// A literal with its terms.
pub type Goal = Literal<Term>;

/// The open literals of a frame, its goal first.
pub type Frame = Vec<Goal>;

/// A step, as far as it was taken.
#[derive(Clone, Debug)]
pub struct Step {
    /// Its record.
    pub record: usize,
    /// What it says.
    pub entry: Entry,
    /// The goal before it.
    pub goal: Option<Goal>,
    /// The column that it uses; none for a reduction.
    pub column: Vec<Goal>,
    /// What has to be the goal's complement: the literal at the position, or the goal of the frame named.
    pub against: Option<Goal>,
    /// The frames after it, or the frames as they were if it is refused.
    pub frames: Vec<Frame>,
}

/// Why a chain is refused, at the last step of the trace.
#[derive(Clone, Copy, Debug, PartialEq, Eq)]
pub enum Why {
    /// 20: there is no step.
    NoStep,
    /// 20: the first step is no start.
    NoStart,
    /// 20: a start after the first.
    LaterStart,
    /// 21: the literal at the position is not the complement.
    Extension,
    /// 22: the frame is not below the last.
    NotBelow,
    /// 22: the goal of the frame is not the complement.
    Reduction,
    /// 23: a 65th frame.
    Frames,
    /// 24: a frame is left at the end.
    Open,
    /// 25: all was closed before.
    AllClosed,
}

impl Why {
    /// The number of the refusal.
    pub fn number(self) -> u8 {
        match self {
            Why::NoStep | Why::NoStart | Why::LaterStart => 20,
            Why::Extension => 21,
            Why::NotBelow | Why::Reduction => 22,
            Why::Frames => 23,
            Why::Open => 24,
            Why::AllClosed => 25,
        }
    }
}

/// The steps up to the one that is refused, or all.
#[derive(Clone, Debug)]
pub struct Trace {
    /// The terms of the query.
    pub query: [u16; 2],
    /// The steps.
    pub steps: Vec<Step>,
    /// Why the last of them is refused; 24 refuses after it.
    pub refused: Option<Why>,
}

impl Trace {
    /// The answer that the library has to give: the number of steps, or number and place of the refusal.
    pub fn answer(&self) -> Result<u32, (u8, u32)> {
        let place = self.steps.last().map_or(0, |step| step.record as u32);
        match self.refused {
            Some(why) => Err((why.number(), place)),
            None => Ok(self.steps.len() as u32),
        }
    }

    /// Whether the library gives that answer.
    pub fn agrees(&self, verdict: Result<u32, Refusal>) -> bool {
        self.answer() == verdict.map_err(|refusal| (refusal.rule.number(), refusal.place))
    }
}

/// Replays a script that keeps the form, in which each term is named by its first record (`script::merged`).
pub fn replay(vocabulary: &Vocabulary, script: &[Words]) -> Trace {
    let [_, a, b, ..] = script.first().copied().unwrap_or_default();
    let mut machine = Machine {
        vocabulary,
        script,
        query: [a, b],
        frames: Vec::new(),
        started: false,
    };
    let on_chain = chained(script).into_iter().zip(script).enumerate();
    let chain = on_chain.filter_map(|(record, (on, words))| Some((record, Entry::read(*words).filter(|_| on)?)));
    let (mut steps, mut refused) = (Vec::new(), None);
    for (record, entry) in chain {
        let (step, why) = machine.step(record, entry);
        steps.push(step);
        refused = why;
        if refused.is_some() {
            break;
        }
    }
    Trace {
        query: [a, b],
        refused: refused.or_else(|| machine.at_end()),
        steps,
    }
}

/// The column without the literal at a position.
pub fn others(column: &[Goal], position: u16) -> Frame {
    let numbered = column.iter().copied().enumerate();
    numbered
        .filter(|(number, _)| *number != usize::from(position))
        .map(|(_, literal)| literal)
        .collect()
}

/// The frames between steps.
struct Machine<'a> {
    vocabulary: &'a Vocabulary,
    script: &'a [Words],
    query: [u16; 2],
    frames: Vec<Frame>,
    started: bool,
}

impl Machine<'_> {
    /// The first open literal of the last frame.
    fn goal(&self) -> Option<Goal> {
        self.frames.last()?.first().copied()
    }

    /// Takes a step, unless it is refused.
    fn step(&mut self, record: usize, entry: Entry) -> (Step, Option<Why>) {
        let (goal, column) = (self.goal(), self.column(entry));
        let against = match entry {
            Entry::Extend(e) => column.get(usize::from(e.position)).copied(),
            Entry::Reduce(frame) => self.frames.get(usize::from(frame)).and_then(|f| f.first()).copied(),
            _ => None,
        };
        let why = self.refused(entry, &column, against);
        if why.is_none() {
            self.take(entry, &column);
        }
        let step = Step {
            record,
            entry,
            goal,
            column,
            against,
            frames: self.frames.clone(),
        };
        (step, why)
    }

    /// Refusals 25 and 20 to 23, in this order.
    fn refused(&self, entry: Entry, column: &[Goal], against: Option<Goal>) -> Option<Why> {
        let is_start = matches!(entry, Entry::Start(_));
        if self.started && self.frames.is_empty() {
            return Some(Why::AllClosed);
        }
        if is_start == self.started {
            return Some(if is_start { Why::LaterStart } else { Why::NoStart });
        }
        let complementary = against.is_some() && against.map(Goal::complement) == self.goal();
        match entry {
            Entry::Extend(_) if !complementary => Some(Why::Extension),
            Entry::Extend(_) if self.frames.len() >= judge::FRAMES && column.len() > 1 => Some(Why::Frames),
            Entry::Reduce(frame) if usize::from(frame) + 1 >= self.frames.len() => Some(Why::NotBelow),
            Entry::Reduce(_) if !complementary => Some(Why::Reduction),
            _ => None,
        }
    }

    /// Takes a step that is not refused.
    fn take(&mut self, entry: Entry, column: &[Goal]) {
        let opened = match entry {
            Entry::Extend(e) => others(column, e.position),
            _ => column.to_vec(),
        };
        self.started = true;
        if opened.is_empty() {
            self.close();
        } else {
            self.frames.push(opened);
        }
    }

    /// Closes the goal. A frame whose literals are all closed goes, and closes the goal under it.
    fn close(&mut self) {
        while let Some(mut frame) = self.frames.pop() {
            if frame.len() > 1 {
                frame.remove(0);
                self.frames.push(frame);
                return;
            }
        }
    }

    /// What the chain's end is refused for.
    fn at_end(&self) -> Option<Why> {
        match (self.started, self.frames.is_empty()) {
            (false, _) => Some(Why::NoStep),
            (true, false) => Some(Why::Open),
            (true, true) => None,
        }
    }

    /// The column of a step with its terms put in.
    fn column(&self, entry: Entry) -> Vec<Goal> {
        let [a, b] = self.query;
        match entry {
            Entry::Start(number) => self.with_terms(&query(a, b), number, Extension::default()),
            Entry::Extend(e) if e.owner == 0 => self.with_terms(&query(a, b), e.column, e),
            Entry::Extend(e) => {
                let saying = self.vocabulary.get(usize::from(e.owner)).saying();
                let list = saying.map_or_else(Vec::new, |saying| columns(e.owner, saying));
                self.with_terms(&list, e.column, e)
            }
            _ => Vec::new(),
        }
    }

    /// A column of a list with the terms of an extension.
    fn with_terms(&self, list: &[Column], number: u16, e: Extension) -> Vec<Goal> {
        let term = |place: Place| match place {
            Place::A => Term::Record(1),
            Place::X => Term::Record(e.x),
            Place::Y => Term::Record(e.y),
            Place::F => self.function(e.owner, e.x),
        };
        let column = list.get(usize::from(number)).map_or(&[][..], Vec::as_slice);
        column.iter().map(|literal| literal.with(term)).collect()
    }

    /// A function of a term, by its record if there is one, be it an earlier or a later one.
    fn function(&self, function: u16, inner: u16) -> Term {
        let words = Entry::Function(function, inner).words(0);
        let found = self.script.iter().position(|record| *record == words);
        match found.and_then(|record| u16::try_from(record).ok()) {
            Some(record) => Term::Record(record),
            None => Term::Function(function, inner),
        }
    }
}
