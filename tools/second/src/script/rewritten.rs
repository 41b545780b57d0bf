//! Scripts of good form, rewritten so that their terms have several records: the answer stays, but for
//! the places. Accepted ones are then damaged as all others are.

use crate::random::{Random, Seed};
use crate::script::call::check_script;
use crate::script::checks::keeps_form;
use crate::script::file::{line, Case};
use crate::script::plan::{Base, Plan};
use crate::script::records::{
    chain, decode, is_step, set, step, Script, Term, Words, CONSTANT_PLACE, EXTENSION, FIRST, KIND, NEXT, TERM, X, Y,
};
use crate::script::writer::Writer;
use crate::vocabulary::Refusal;

/// How many records a script may have that is rewritten.
const SHORT: usize = 24;
/// How many bytes its vocabulary may have.
const SHORT_VOCABULARY: usize = 160;
/// The most records that a term gets in the place of one.
const MOST_COPIES: usize = 3;
/// Once in how many records another repeat stands before it.
const MORE: usize = 4;

/// Once in how many scripts one is rewritten, and once in how many accepted ones one is damaged too: of
/// the stored cases.
const STORED: (usize, usize) = (4, 14);
/// The same of the cases of another seed.
const SEEDED: (usize, usize) = (2, 4);

/// How often a script with a reduction by function terms is rewritten.
const TIMES: usize = 2;

/// An answer to a script.
type Answer = Result<usize, Refusal>;

/// A script in the rewriting, and where the old records stand in it.
struct Rewriting {
    /// The script.
    writer: Writer,
    /// The places.
    places: Vec<usize>,
}

impl Writer {
    /// Any record of a term.
    fn any(&self, term: &[u16], random: &mut Random) -> u16 {
        let of_term = self.terms.iter().filter(|(known, _)| known == term);
        let numbers: Vec<u16> = of_term.map(|(_, number)| *number).collect();
        random.pick(&numbers).unwrap_or(0)
    }

    /// Pushes a record of a term, over any record of its inner term.
    fn again(&mut self, term: &[u16], random: &mut Random) {
        if let Some((function, inner)) = term.split_first() {
            let inner = self.any(inner, random);
            let number = self.push(step(TERM, &[*function, inner]));
            self.terms.push((term.to_vec(), number));
        }
    }

    /// Pushes one more record of any term.
    fn repeat(&mut self, random: &mut Random) {
        let term = self.terms.get(random.below(self.terms.len()));
        if let Some((term, _)) = term.cloned() {
            self.again(&term, random);
        }
    }
}

impl Rewriting {
    /// Adds an old record: a term once or more often, an extension with any records of its terms.
    fn add(&mut self, script: &Script, place: usize, random: &mut Random) {
        let writer = &mut self.writer;
        let written = |number: u16| script.written_out(Term::Record(number));
        let record = script.record(place);
        self.places.push(writer.records.len());
        match record[KIND] {
            TERM => {
                for _ in 0..=random.below(MOST_COPIES) {
                    writer.again(&written(place as u16), random);
                }
            }
            EXTENSION => {
                let number = writer.push(record);
                for word in [X, Y] {
                    let old = script.word(place, word);
                    let new = if old == 0 { 0 } else { writer.any(&written(old), random) };
                    set(&mut writer.records, number.into(), word, new);
                }
            }
            _ => {
                writer.push(record);
            }
        }
    }

    /// Links all steps as they were, to where the old records stand now.
    fn link(&mut self, script: &Script) {
        for (old, record) in script.records.iter().enumerate() {
            let word = match old {
                0 => FIRST,
                _ if is_step(record[KIND]) => NEXT,
                _ => continue,
            };
            let next = self.place(script.word(old, word).into()) as u16;
            let holder = self.place(old);
            set(&mut self.writer.records, holder, word, next);
        }
        self.writer.chain = chain(&self.writer.records);
    }

    /// Where an old record stands.
    fn place(&self, old: usize) -> usize {
        self.places.get(old).copied().unwrap_or(0)
    }
}

/// Whether some record is a function's term.
fn has_term(records: &[Words]) -> bool {
    records.iter().any(|record| record[KIND] == TERM)
}

impl Base {
    /// The script of a case, if it is short, has function terms and keeps the form; and its answer.
    fn of(case: &Case) -> Option<(Base, Answer)> {
        let records = decode(&case.script);
        let short = records.len() <= SHORT && case.vocabulary.len() <= SHORT_VOCABULARY;
        let answer = check_script(&case.vocabulary, &case.script);
        if !short || !has_term(&records) || !keeps_form(answer) {
            return None;
        }
        let writer = Writer {
            chain: chain(&records),
            terms: Vec::new(),
            records,
        };
        let vocabulary = case.vocabulary.clone();
        Some((Base { vocabulary, writer }, answer))
    }

    /// The script with its terms under several records.
    fn rewritten(&self, random: &mut Random) -> Rewriting {
        let script = self.script();
        let mut rewriting = Rewriting {
            writer: Writer::new(script.matrix.query),
            places: vec![0, CONSTANT_PLACE.into()],
        };
        for place in 2..script.records.len() {
            while random.chance(MORE) {
                rewriting.writer.repeat(random);
            }
            rewriting.add(&script, place, random);
        }
        if random.chance(2) {
            rewriting.writer.repeat(random);
        }
        rewriting.link(&script);
        rewriting
    }
}

impl Plan {
    /// Some of the scripts so far, rewritten.
    pub fn rewritten(&mut self, seed: Seed) {
        let (cases, bases) = if seed.is_none() { STORED } else { SEEDED };
        let all: Vec<_> = self
            .cases
            .iter()
            .filter_map(|planned| Base::of(&planned.case))
            .collect();
        for (base, answer) in all.iter().step_by(cases) {
            self.rewrite(base, *answer);
        }
        let accepted = all.iter().filter(|(_, answer)| answer.is_ok());
        for (base, _) in accepted.step_by(bases) {
            let writer = base.rewritten(&mut self.random).writer;
            let vocabulary = base.vocabulary.clone();
            self.damages(&Base { vocabulary, writer }, 2);
        }
    }

    /// Scripts with reductions by function terms, each rewritten several times. The records that a frame's
    /// goal and the goal have are chosen apart.
    pub fn rewritten_reductions(&mut self) {
        let reductions = self.single_reductions();
        for (base, answer) in reductions.iter().filter_map(|planned| Base::of(&planned.case)) {
            for _ in 0..TIMES {
                self.rewrite(&base, answer);
            }
        }
    }

    /// Adds a script, rewritten.
    fn rewrite(&mut self, base: &Base, answer: Answer) {
        let rewriting = base.rewritten(&mut self.random);
        let moved = |refusal: Refusal| Refusal {
            place: rewriting.place(refusal.place),
            ..refusal
        };
        let meant = line(answer.map_err(moved));
        self.add(&base.vocabulary, rewriting.writer.bytes(), &meant);
    }
}
