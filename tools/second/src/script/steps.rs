//! Accepted scripts with a step of their chain damaged: rows 20 to 22, 24 and 25, and row 18 by a
//! statement off the chain. Whatever stands before the step is as it was, so that its refusal is
//! the first.

use crate::script::columns::{Argument, Column, Literal, Matrix};
use crate::script::plan::{refused, Base, Plan};
use crate::script::prover::opposed;
use crate::script::records::{
    replace, set, step, with, Script, Term, Words, COLUMN, CONSTANT_PLACE, EXTENSION, FIRST, FRAME, KIND, NEXT, OWNER,
    POSITION, REDUCTION, START, TERM, X, Y,
};
use crate::vocabulary::records::{at as vocabulary_record, Record};

impl Plan {
    /// Rows 20 to 22, 24 and 25 in a script, at random steps.
    pub fn chain_faults(&mut self, base: &Base) {
        let steps = base.writer.chain.len();
        let last = self.random.below(steps - 1);
        self.cut(&base.vocabulary, &base.writer, last);
        match self.random.below(3) {
            0 => self.after_the_end(base),
            1 => self.wrong_start(base),
            _ => self.no_first_start(base),
        }
        self.not_complementary(base);
        self.off_chain(base);
        self.wrong_reduction(base);
        self.other_step(base);
    }

    /// Row 25: a step of any kind after the last, and perhaps one more.
    fn after_the_end(&mut self, base: &Base) {
        let mut writer = base.writer.clone();
        let place = writer.records.len();
        let matrix = base.matrix();
        for _ in 0..1 + self.random.below(2) {
            let record = match self.random.below(3) {
                0 => step(START, &[self.random.below(2) as u16]),
                1 => step(REDUCTION, &[self.random.below(3) as u16]),
                _ => writer.extension(&matrix, &mut self.random),
            };
            writer.chained(record);
        }
        writer.link_chain();
        self.add(&base.vocabulary, writer.bytes(), &refused(25, place));
    }

    /// The script with a step of the chain replaced; it keeps its next.
    fn replaced(&mut self, base: &Base, at: usize, record: Words, meant: &str) {
        let mut records = base.writer.records.clone();
        replace(&mut records, at, with(record, NEXT, base.writer.record(at)[NEXT]));
        self.add_records(&base.vocabulary, &records, meant);
    }

    /// Row 20: a start that is not the first step.
    fn wrong_start(&mut self, base: &Base) {
        let later = self.random.pick(later_steps(base)).unwrap_or(1);
        let start = step(START, &[self.random.below(2) as u16]);
        self.replaced(base, later, start, &refused(20, later));
    }

    /// Row 20: a first step that is no start, by the header's w3 or in the start's place.
    fn no_first_start(&mut self, base: &Base) {
        let [first, second] = [0, 1].map(|step| base.writer.place(step));
        if self.random.chance(2) {
            let mut records = base.writer.records.clone();
            set(&mut records, 0, FIRST, second as u16);
            self.add_records(&base.vocabulary, &records, &refused(20, second));
        } else {
            let record = match self.random.below(2) {
                0 => step(REDUCTION, &[0]),
                _ => step(EXTENSION, &[0, 0, 1, 0, 0]),
            };
            self.replaced(base, first, record, &refused(20, first));
        }
    }

    /// Row 21: an extension at another position, or with another term where the literal has it.
    fn not_complementary(&mut self, base: &Base) {
        let script = base.script();
        let place = self.random.pick(&extensions(base)).unwrap_or(0);
        let lists = [other_positions, other_terms, other_functions];
        for all in lists.map(|list| list(&script, place)) {
            if let Some(wrong) = self.random.pick(&all) {
                self.replaced(base, place, wrong, &refused(21, place));
            }
        }
    }

    /// Row 18: a statement's column by the same statement off the chain.
    fn off_chain(&mut self, base: &Base) {
        let script = base.script();
        let extensions = extensions(base).into_iter();
        let wrong = extensions.filter_map(|place| {
            let owner = off_chain_copy(&script, script.word(place, OWNER))?;
            Some((place, with(script.record(place), OWNER, owner)))
        });
        if let Some((place, record)) = self.random.pick(&wrong.collect::<Vec<_>>()) {
            self.replaced(base, place, record, &refused(18, place));
        }
    }

    /// Row 22: a reduction against no frame, and one against any frame.
    fn wrong_reduction(&mut self, base: &Base) {
        let chain = &base.writer.chain;
        let later = self.random.pick(later_steps(base)).unwrap_or(1);
        let far = self.random.pick(&[64, 256, 65535, chain.len() as u16]).unwrap_or(64);
        self.replaced(base, later, step(REDUCTION, &[far]), &refused(22, later));
        let near = step(REDUCTION, &[self.random.below(4) as u16]);
        self.replaced(base, later, near, "");
    }

    /// A reduction's frame, or a step, replaced by any other of good form; mostly row 21 or 22.
    fn other_step(&mut self, base: &Base) {
        let matrix = base.matrix();
        let at = self.random.pick(&base.writer.chain).unwrap_or(1);
        let mut before = base.writer.clone();
        before.terms.retain(|(_, number)| usize::from(*number) < at);
        let record = base.writer.record(at);
        let other = match record[KIND] {
            REDUCTION => with(record, FRAME, record[FRAME].wrapping_sub(1)),
            START => step(START, &[1 - record[FRAME]]),
            _ => before.extension(&matrix, &mut self.random),
        };
        self.replaced(base, at, other, "");
    }
}

/// The steps of a script's chain but the first, by place.
fn later_steps(base: &Base) -> &[usize] {
    base.writer.chain.get(1..).unwrap_or_default()
}

/// The extensions of a script's chain.
fn extensions(base: &Base) -> Vec<usize> {
    let is_extension = |place: &usize| base.writer.record(*place)[KIND] == EXTENSION;
    base.writer.chain.iter().copied().filter(is_extension).collect()
}

/// A statement off the chain that says what one on it does.
fn off_chain_copy(script: &Script, owner: u16) -> Option<u16> {
    let Matrix {
        records, statements, ..
    } = &script.matrix;
    let own = vocabulary_record(records, owner.into());
    let is_copy = |r: &Record| own.is_statement() && r.is_statement() && r.operands() == own.operands();
    let mut copies = (0..).zip(records).filter(|(_, record)| is_copy(record));
    copies
        .find(|(number, _)| !statements.contains(number))
        .map(|(number, _)| number)
}

/// The literal of a column at the position of an extension, and the column.
fn connected(script: &Script, place: usize) -> Option<(Literal<Argument>, Column)> {
    let record = script.record(place);
    let column = script.matrix.column(record[OWNER], record[COLUMN]);
    let literal = column.get(usize::from(record[POSITION]))?.clone();
    Some((literal, column))
}

/// An extension that connects, at each position with another literal.
fn other_positions(script: &Script, place: usize) -> Vec<Words> {
    let Some((literal, column)) = connected(script, place) else {
        return Vec::new();
    };
    let others = (0..).zip(&column).filter(|(_, other)| **other != literal);
    others
        .map(|(position, _)| with(script.record(place), POSITION, position))
        .collect()
}

/// An extension that connects with a function's literal, by each other function whose literal has
/// the same predicate.
fn other_functions(script: &Script, place: usize) -> Vec<Words> {
    let record = script.record(place);
    let Some((literal, _)) = connected(script, place) else {
        return Vec::new();
    };
    let is_function = |a: &Argument| matches!(a, Argument::Function(_));
    if !literal.arguments.iter().any(is_function) {
        return Vec::new();
    }
    let owners = (1..script.matrix.records.len() as u16).filter(|n| *n != record[OWNER]);
    let like = owners.filter(|owner| {
        let columns = script.matrix.columns(*owner);
        let column = columns.get(usize::from(record[COLUMN]));
        let other = column.and_then(|column| column.get(usize::from(record[POSITION])));
        other.is_some_and(|other| !opposed(other, &literal) && other.predicate == literal.predicate)
    });
    like.map(|owner| with(record, OWNER, owner)).collect()
}

/// An extension that connects, with each record of another term for a variable that its literal has.
fn other_terms(script: &Script, place: usize) -> Vec<Words> {
    let record = script.record(place);
    let Some((literal, _)) = connected(script, place) else {
        return Vec::new();
    };
    let has_y = literal.arguments.contains(&Argument::Y);
    let is_x = |a: &Argument| matches!(a, Argument::X | Argument::Function(_));
    let has_x = literal.arguments.iter().any(is_x);
    let terms = (2..place).filter(|p| script.word(*p, KIND) == TERM);
    let mut wrong = Vec::new();
    for term in terms.map(|p| p as u16).chain([CONSTANT_PLACE]) {
        for (word, has) in [(X, has_x), (Y, has_y)] {
            let written = |number| script.written_out(Term::Record(number));
            if has && written(term) != written(script.word(place, word)) {
                wrong.push(with(record, word, term));
            }
        }
    }
    wrong
}
