//! Reductions by terms under several records, in chains that are worked out by hand: accepted ones, and
//! twins of them whose terms differ in one function, however deep.

use crate::comparison::Terms;
use crate::script::file::Case;
use crate::script::plan::{refused, Plan, Planned};
use crate::script::records::{set, step, CONSTANT_PLACE, EXTENSION, REDUCTION, START, X};
use crate::script::repeats::{exchanged, push_rungs, Rungs};
use crate::script::writer::Writer;

/// The vocabulary, whose restrictions hold of everything: 1 top; 2 a name; 3 its complement; 4 either; 5
/// either of two 4; from 6 on so many restrictions, all role 0 to the record before. One more to 5 has a
/// function that no step needs.
fn valid(height: usize) -> Vec<u8> {
    let mut terms = Terms::new(1);
    terms.top();
    let name = terms.name();
    let not = terms.not(name);
    let either = terms.or(name, not);
    let twice = terms.or(either, either);
    (0..height).fold(twice, |below, _| terms.all(0, below));
    terms.all(0, twice);
    terms.bytes()
}

/// A script for top within the highest restriction: t has a function of each, from the highest on, and t'
/// is what the last function is applied to.
struct Reduction {
    /// How many restrictions there are.
    height: usize,
    /// The script.
    writer: Writer,
    /// The records of the parts of t.
    rungs: Rungs,
    /// The records of the parts of a term that differs from t in one function, or none.
    others: Rungs,
}

impl Reduction {
    /// The terms alone, each part of t with so many records. The other term differs at a level.
    fn new(height: usize, count: usize, level: Option<usize>) -> Reduction {
        let top = 5 + height as u16;
        let functions: Vec<u16> = (6..=top).rev().collect();
        let mut writer = Writer::new([1, top]);
        let rungs = push_rungs(&mut writer, &functions, count);
        let others = level.map(|level| push_rungs(&mut writer, &exchanged(&functions, level, |_| top + 1), count));
        Reduction {
            height,
            writer,
            others: others.unwrap_or_default(),
            rungs,
        }
    }

    /// Takes the steps to C5(f6(t')), the goal of the frame that has the number of the restrictions.
    fn descend(&mut self, any: &mut impl FnMut(&[u16]) -> u16) {
        self.writer.chained(step(START, &[1]));
        for (owner, rung) in (6..=5 + self.height as u16).rev().zip(&self.rungs) {
            self.writer.chained(step(EXTENSION, &[owner, 1, any(rung)]));
        }
    }

    /// Takes the steps from C5(t) to ¬C4(t), over C4(t) in the first frame; each has any of some records of t.
    fn turn(&mut self, of: &[u16], any: &mut impl FnMut(&[u16]) -> u16) {
        for [owner, column, position] in [[5, 0, 0], [4, 0, 0], [3, 1, 1], [4, 1, 1]] {
            self.writer
                .chained(step(EXTENSION, &[owner, column, any(of), 0, position]));
        }
    }

    /// The case, which has an answer.
    fn planned(mut self, meant: Option<String>) -> Planned {
        self.writer.link_chain();
        let accepted = format!("accepted {}", self.writer.chain.len());
        Planned {
            case: Case {
                vocabulary: valid(self.height),
                script: self.writer.bytes(),
            },
            meant: meant.unwrap_or(accepted),
        }
    }
}

/// The records at a rung.
fn rung(rungs: &Rungs, depth: usize) -> &[u16] {
    rungs.get(depth).map_or(&[], Vec::as_slice)
}

impl Plan {
    /// Reductions of function terms that pass, by any two records of the term; and some that do not,
    /// whose terms differ in one function below the outermost.
    pub fn reduced_repeats(&mut self) {
        for height in 1..=3 {
            for picks in (0..3).flat_map(|lower| (0..3).map(move |goal| [lower, goal])) {
                self.reduced(height, 3, false, picks);
                // The constant has one record.
                if height > 1 || picks.starts_with(&[0]) {
                    self.reduced(height, 3, true, picks);
                }
            }
        }
        for height in [6, 19, 40] {
            self.reduced(height, 2, false, [0, 1]);
            self.reduced(height, 2, true, [1, 0]);
        }
        for height in [1, 2, 3, 5, 20] {
            self.returned(height, 2, 0, None);
            self.returned(height, 3, 2, None);
        }
        for height in [2, 3, 4, 6] {
            (0..height - 1).for_each(|level| self.returned(height, 2, 0, Some(level)));
        }
        for level in [0, 1, 3, 9, 18] {
            self.returned(20, 2, 0, Some(level));
        }
    }

    /// The same with one record of each term.
    pub fn single_reductions(&mut self) -> Vec<Planned> {
        let mut all = Vec::new();
        for height in 1..=3 {
            all.push(self.reduction(height, 1, false, [0, 0]));
            all.push(self.reduction(height, 1, true, [0, 0]));
            all.push(self.detour(height, 1, 0, None));
        }
        all.push(self.detour(3, 1, 0, Some(0)));
        all
    }

    /// Adds a reduction.
    fn reduced(&mut self, height: usize, count: usize, by_function: bool, picks: [usize; 2]) {
        let planned = self.reduction(height, count, by_function, picks);
        self.cases.push(planned);
    }

    /// Adds a detour.
    fn returned(&mut self, height: usize, count: usize, above: u16, level: Option<usize>) {
        let planned = self.detour(height, count, above, level);
        self.cases.push(planned);
    }

    /// Restrictions around what holds anyway: ¬C4(t) is reduced against C4(t), each by the record picked;
    /// or ¬C5(t), by the record picked, against C5(f6(t')), by that of t'.
    fn reduction(&mut self, height: usize, count: usize, by_function: bool, [lower, goal]: [usize; 2]) -> Planned {
        let mut made = Reduction::new(height, count, None);
        let mut any = |rung: &[u16]| self.random.pick(rung).unwrap_or(CONSTANT_PLACE);
        let of = rung(&made.rungs, height).to_vec();
        made.descend(&mut any);
        made.turn(&of, &mut any);
        if by_function {
            made.writer.chained(step(EXTENSION, &[5, 0, any(&of), 0, 1]));
        }
        let frame = if by_function { height } else { height + 1 };
        for (at, depth, pick) in [
            (frame, frame.min(height) - usize::from(by_function), lower),
            (made.writer.chain.len() - 1, height, goal),
        ] {
            let picked = rung(&made.rungs, depth).get(pick).copied();
            let place = made.writer.place(at);
            set(&mut made.writer.records, place, X, picked.unwrap_or(CONSTANT_PLACE));
        }
        made.writer.chained(step(REDUCTION, &[frame as u16]));
        made.planned(None)
    }

    /// From C5(f6(t')) to C6 of another record of t', and down again to C5(f6(t')): then ¬C5(t) is
    /// reduced against the one, or against the other two frames above; the role goes by one more record of
    /// t', whose ¬C6 is reduced. With a level, the terms on the way differ from t there, and the first
    /// reduction is refused.
    fn detour(&mut self, height: usize, count: usize, above: u16, level: Option<usize>) -> Planned {
        let mut made = Reduction::new(height, count, level);
        let mut any = |rung: &[u16]| self.random.pick(rung).unwrap_or(CONSTANT_PLACE);
        let taken = if level.is_some() { &made.others } else { &made.rungs };
        let [inner, outer] = [height - 1, height].map(|depth| rung(taken, depth).to_vec());
        let met = rung(&made.rungs, height).to_vec();
        made.descend(&mut any);
        made.writer.chained(step(EXTENSION, &[6, 2, any(&inner), any(&met), 2]));
        made.writer.chained(step(EXTENSION, &[6, 1, any(&inner)]));
        made.turn(&outer, &mut any);
        made.writer.chained(step(EXTENSION, &[5, 0, any(&outer), 0, 1]));
        made.writer.chained(step(REDUCTION, &[height as u16 + above]));
        let reduced = made.writer.place(made.writer.chain.len() - 1);
        made.writer.chained(step(EXTENSION, &[6, 0, any(&inner), 0, 1]));
        made.writer.chained(step(REDUCTION, &[height as u16 - 1]));
        made.planned(level.map(|_| refused(22, reduced)))
    }
}
