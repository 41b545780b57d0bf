//! Scripts in the making: the steps of a derivation, the term records that they need, and others.

use crate::random::Random;
use crate::script::columns::{mentions, Argument, Matrix};
use crate::script::prover::{applied, Step, Term};
use crate::script::records::{
    at, encode, is_step, set, step, Words, CONSTANT, CONSTANT_PLACE, EXTENSION, FIRST, HEADER, KIND, NEXT, REDUCTION,
    START, TERM,
};

/// A script that is being written.
#[derive(Clone)]
pub struct Writer {
    /// The records.
    pub records: Vec<Words>,
    /// The terms that have a record, and its number.
    pub terms: Vec<(Term, u16)>,
    /// The steps of the chain, by place.
    pub chain: Vec<usize>,
}

impl Writer {
    /// The header of a query, and the constant.
    pub fn new([a, b]: [u16; 2]) -> Writer {
        let constant = step(CONSTANT, &[]);
        Writer {
            records: vec![step(HEADER, &[a, b]), constant],
            terms: vec![(Term::new(), CONSTANT_PLACE)],
            chain: Vec::new(),
        }
    }

    /// The record at a place.
    pub fn record(&self, place: usize) -> Words {
        at(&self.records, place)
    }

    /// The place of a step, by its number on the chain; the header's where there is no such step.
    pub fn place(&self, step: usize) -> usize {
        self.chain.get(step).copied().unwrap_or(0)
    }

    /// Pushes a record, and answers its number.
    pub fn push(&mut self, record: Words) -> u16 {
        self.records.push(record);
        (self.records.len() - 1) as u16
    }

    /// The number of a term's record, which is pushed if it is not there.
    pub fn term(&mut self, term: &[u16]) -> u16 {
        let known = self.terms.iter().find(|(known, _)| known == term);
        if let Some((_, number)) = known {
            return *number;
        }
        let Some((function, inner)) = term.split_first() else {
            return CONSTANT_PLACE;
        };
        let inner = self.term(inner);
        let number = self.push(step(TERM, &[*function, inner]));
        self.terms.push((term.to_vec(), number));
        number
    }

    /// Pushes a step of the chain.
    pub fn chained(&mut self, record: Words) {
        let place = self.push(record);
        self.chain.push(place.into());
    }

    /// Pushes a derivation's step.
    pub fn step(&mut self, taken: &Step) {
        let record = match taken {
            Step::Start(column) => step(START, &[*column]),
            Step::Reduction(frame) => step(REDUCTION, &[*frame]),
            Step::Extension(e) => {
                let y = e.y.as_ref().map_or(0, |y| self.term(y));
                let x = self.term(&e.x);
                step(EXTENSION, &[e.owner, e.column, x, y, e.position])
            }
        };
        self.chained(record);
    }

    /// Pushes a record that the derivation does not need: a term, or a step off the chain.
    pub fn idle(&mut self, matrix: &Matrix, random: &mut Random) {
        match random.below(5) {
            0 | 4 => self.idle_term(matrix, random),
            1 => {
                self.push(step(START, &[random.below(2) as u16]));
            }
            2 => {
                self.push(step(REDUCTION, &[random.number()]));
            }
            _ => self.idle_extension(matrix, random),
        }
    }

    /// Pushes a term that has no record yet, if the vocabulary has a function.
    pub fn idle_term(&mut self, matrix: &Matrix, random: &mut Random) {
        let numbered = (0..).zip(&matrix.records);
        let functions = numbered.filter(|(_, r)| r.kind == 7 || r.kind == 8);
        let functions: Vec<u16> = functions.map(|(number, _)| number).collect();
        let inner = self.terms.get(random.below(self.terms.len()));
        let inner = inner.map(|(term, _)| term.clone()).unwrap_or_default();
        if let Some(function) = random.pick(&functions) {
            self.term(&applied(function, &inner));
        }
    }

    /// Pushes an extension off the chain, by any column and terms.
    fn idle_extension(&mut self, matrix: &Matrix, random: &mut Random) {
        let record = self.extension(matrix, random);
        self.push(record);
    }

    /// An extension of good form.
    pub fn extension(&self, matrix: &Matrix, random: &mut Random) -> Words {
        let owner = random.below(matrix.records.len()) as u16;
        let columns = matrix.columns(owner);
        let number = random.below(columns.len());
        let Some(column) = columns.get(number) else {
            return step(EXTENSION, &[0, random.below(2) as u16, CONSTANT_PLACE]);
        };
        let mut any = || {
            let term = self.terms.get(random.below(self.terms.len()));
            term.map_or(CONSTANT_PLACE, |(_, number)| *number)
        };
        let x = if owner == 0 { CONSTANT_PLACE } else { any() };
        let y = if mentions(column, Argument::Y) { any() } else { 0 };
        let position = random.below(column.len()) as u16;
        step(EXTENSION, &[owner, number as u16, x, y, position])
    }

    /// Links the chain, and gives each step off it a next that may stand.
    pub fn link(&mut self, random: &mut Random) {
        let all = (1..self.records.len()).filter(|place| is_step(self.record(*place)[KIND]));
        let steps: Vec<usize> = all.collect();
        for place in &steps {
            let later: Vec<usize> = steps.iter().copied().filter(|s| s > place).collect();
            let next = random.pick(&later).filter(|_| random.chance(2));
            set(&mut self.records, *place, NEXT, next.unwrap_or(0) as u16);
        }
        self.link_chain();
    }

    /// Links the chain.
    pub fn link_chain(&mut self) {
        let mut holder = (0, FIRST);
        for place in &self.chain {
            set(&mut self.records, holder.0, holder.1, *place as u16);
            holder = (*place, NEXT);
        }
        set(&mut self.records, holder.0, holder.1, 0);
    }

    /// The bytes of the script.
    pub fn bytes(&self) -> Vec<u8> {
        encode(&self.records)
    }
}

/// The script of a derivation. Once in `idle` times a record stands before a step that it does not
/// need; 0 for never. With `early` its terms stand before all steps.
pub fn write(matrix: &Matrix, steps: &[Step], early: bool, idle: usize, random: &mut Random) -> Writer {
    let mut writer = Writer::new(matrix.query);
    if early {
        let needed = steps.iter().filter_map(|step| match step {
            Step::Extension(e) => Some(e),
            _ => None,
        });
        for extension in needed {
            writer.term(&extension.x);
            writer.term(extension.y.as_ref().unwrap_or(&extension.x));
        }
    }
    for step in steps {
        while idle > 0 && random.chance(idle) {
            writer.idle(matrix, random);
        }
        writer.step(step);
    }
    if idle > 0 && random.chance(2) {
        writer.idle(matrix, random);
    }
    writer.link(random);
    writer
}
