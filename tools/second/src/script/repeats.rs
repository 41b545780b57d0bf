//! Terms under several records, in chains that are worked out by hand: equal records, records of one
//! term over others of its inner term, and terms that differ in one function, however deep.

use crate::comparison::{sample_4, v, Terms};
use crate::script::plan::{refused, Plan};
use crate::script::records::{step, Words, CONSTANT, CONSTANT_PLACE, EXTENSION, MOST_RECORDS, REDUCTION, START, TERM};
use crate::script::samples::{chained, sample_7, sample_9};
use crate::script::writer::Writer;

/// The records of each part of a term, by how many functions the part has.
pub type Rungs = Vec<Vec<u16>>;

/// f2(a), where it is not the first record.
const AGAIN: Words = [TERM, 2, CONSTANT_PLACE, 0, 0, 0, 0, 0];

/// Sample 9, which names a record for f2(a), with more records behind the first of f2(a).
fn sample_9_with(more: &[Words], x: u16) -> Vec<Words> {
    let mut records = sample_9(2, x);
    records.splice(3..3, more.iter().copied());
    chained(&records)
}

/// Pushes so many records for each part of a term, over the records of the part inside by turns. The
/// functions are those from the constant on.
pub fn push_rungs(writer: &mut Writer, functions: &[u16], count: usize) -> Rungs {
    let mut rungs = vec![vec![CONSTANT_PLACE]];
    for function in functions {
        let below = rungs.last().cloned().unwrap_or_default();
        let inner = below.iter().cycle().skip(1).take(count);
        rungs.push(inner.map(|n| writer.push(step(TERM, &[*function, *n]))).collect());
    }
    rungs
}

/// Functions with the one at a place exchanged.
pub fn exchanged(functions: &[u16], at: usize, by: impl Fn(u16) -> u16) -> Vec<u16> {
    let numbered = functions.iter().enumerate();
    numbered.map(|(i, f)| if i == at { by(*f) } else { *f }).collect()
}

impl Plan {
    /// Samples 7 and 9 with repeats.
    pub fn repeated_samples(&mut self) {
        self.equal_records();
        self.scattered_records();
        self.wrong_records();
        self.second_constants();
    }

    /// Sample 9 with f2(a) under several records, of which its last step names each in turn; and with a,
    /// or f2 of one of them, which are other terms.
    fn equal_records(&mut self) {
        let vocabulary = sample_4().bytes();
        for count in [1, 2, 5] {
            let mut again = vec![AGAIN; count];
            let last = count as u16 + 2;
            for x in 2..=last {
                self.add_records(&vocabulary, &sample_9_with(&again, x), "accepted 3");
            }
            again.push(step(TERM, &[2, last]));
            for x in [CONSTANT_PLACE, last + 1] {
                let records = sample_9_with(&again, x);
                self.add_records(&vocabulary, &records, &refused(21, records.len() - 1));
            }
        }
    }

    /// Sample 9 with more records of f2(a) before, among and after its steps. The last step names the first
    /// record, so that nothing names the others, or the last, which has to stand before it.
    fn scattered_records(&mut self) {
        for (count, at) in [1, 3].into_iter().flat_map(|count| (3..=6).map(move |at| (count, at))) {
            let late = if at == 6 {
                refused(18, 5)
            } else {
                "accepted 3".to_string()
            };
            for (x, meant) in [(2, "accepted 3"), (at + count - 1, &late)] {
                let mut records = sample_9(2, x as u16);
                records.splice(at..at, vec![AGAIN; count]);
                self.add_records(&sample_4().bytes(), &chained(&records), meant);
            }
        }
    }

    /// Row 17 next to repeats: a function that is none, or an inner term that is no earlier term record,
    /// before the steps and after them.
    fn wrong_records(&mut self) {
        let vocabulary = sample_4().bytes();
        for words in [
            [0, 1],
            [1, 1],
            [1, 2],
            [3, 1],
            [2, 0],
            [2, 4],
            [2, 5],
            [2, 6],
            [2, 65535],
        ] {
            let wrong = step(TERM, &words);
            let records = sample_9_with(&[AGAIN, wrong, AGAIN], 2);
            self.add_records(&vocabulary, &records, &refused(17, 4));
            let records = [sample_9_with(&[AGAIN], 3), vec![wrong]].concat();
            self.add_records(&vocabulary, &records, &refused(17, 7));
        }
    }

    /// Row 17: the constant once more, alone and next to a repeat, whether or not a step names it.
    fn second_constants(&mut self) {
        let constant = step(CONSTANT, &[]);
        for at in 2..=5 {
            let mut records = sample_7();
            records.insert(at, constant);
            self.add_records(&v().bytes(), &chained(&records), &refused(17, at));
        }
        for x in [2, 3, 4] {
            let records = sample_9_with(&[AGAIN, constant], x);
            self.add_records(&sample_4().bytes(), &records, &refused(17, 4));
        }
    }
}

/// Bottom, 1, and above it on each level two restrictions, some role 0 to the first one below: 2 n
/// and 2 n + 1 on level n.
fn levels(height: usize) -> Vec<u8> {
    let mut terms = Terms::new(1);
    let bottom = terms.bottom();
    (0..height).fold(bottom, |below, _| {
        let some = terms.some(0, below);
        terms.some(0, below);
        some
    });
    terms.bytes()
}

impl Plan {
    /// Chains that name any records of deep terms.
    pub fn deep_repeats(&mut self) {
        self.nested_terms();
        self.jumped_terms();
    }

    /// Restrictions inside each other, whose terms go as deep: each step names any record of its term,
    /// or one of a term that differs in one function.
    fn nested_terms(&mut self) {
        for (height, count) in [
            (1, 3),
            (2, 2),
            (2, 3),
            (3, 2),
            (3, 4),
            (5, 3),
            (12, 2),
            (30, 2),
            (63, 2),
            (63, 31),
        ] {
            self.nested(height, count, None);
        }
        for height in 2..=4 {
            for (at, level) in (1..=height).flat_map(|at| (0..at).map(move |level| (at, level))) {
                self.nested(height, 2, Some([at, level]));
            }
        }
        for wrong in [[20, 0], [20, 10], [20, 19], [18, 0], [5, 0]] {
            self.nested(20, 2, Some(wrong));
        }
        self.nested(63, 2, Some([63, 0]));
    }

    /// The query of the highest of so many levels within bottom, with so many records of each term. An
    /// extension, by its number, may name a term that differs at a level.
    fn nested(&mut self, height: usize, count: usize, wrong: Option<[usize; 2]>) {
        let functions: Vec<u16> = (1..=height as u16).rev().map(|level| 2 * level).collect();
        let mut writer = Writer::new([2 * height as u16, 1]);
        let mut named = push_rungs(&mut writer, &functions, count);
        if let Some([at, level]) = wrong {
            let others = push_rungs(&mut writer, &exchanged(&functions, level, |f| f + 1), 1);
            named.splice(at..=at, others.into_iter().skip(at).take(1));
        }
        writer.chained(step(START, &[0]));
        let owners = functions.iter().map(|function| (*function, 1)).chain([(1, 0)]);
        for ((owner, column), rung) in owners.zip(&named) {
            let x = self.random.pick(rung).unwrap_or(CONSTANT_PLACE);
            writer.chained(step(EXTENSION, &[owner, column, x]));
        }
        writer.link_chain();
        let meant = match wrong {
            Some([at, _]) => refused(21, writer.place(1 + at)),
            None => format!("accepted {}", height + 2),
        };
        self.add(&levels(height), writer.bytes(), &meant);
    }
}

/// The terms that a jump names, in the order of its steps.
#[derive(Clone, Copy, PartialEq, Eq)]
enum Named {
    /// t, which the first extension jumps to.
    Jumped,
    /// t, whose f3(t) is the goal of frame 2.
    Applied,
    /// f3(t), of any t.
    Any,
    /// f3(t), which meets the goal of frame 2.
    Met,
    /// f3(t), which meets the one of any t.
    Stated,
    /// f3(t), which meets the one before.
    Complement,
    /// t, whose f3(t) meets the one before.
    Inner,
}

/// A jump: which of its terms are of another t, whether it ends with an extension and a reduction or with
/// a reduction alone, and its refusal, with the number of the step.
type Jump = (&'static [Named], bool, u8, usize);

/// The jumps: all terms are of one t, and frames are left at the end; an extension finds one to be of
/// another t; a reduction does.
const JUMPS: [Jump; 9] = [
    (&[], false, 24, 6),
    (&[], true, 24, 7),
    (&[Named::Applied], false, 21, 2),
    (&[Named::Met], true, 21, 3),
    (&[Named::Stated], false, 21, 4),
    (&[Named::Complement], true, 21, 5),
    (&[Named::Inner], true, 21, 6),
    (&[Named::Any, Named::Stated, Named::Complement], false, 22, 6),
    (
        &[Named::Any, Named::Stated, Named::Complement, Named::Inner],
        true,
        22,
        7,
    ),
];

/// The most functions of a t of which there is room for two records: header, constant and the steps
/// of a jump are records too, and f3(t) has one function more.
const DEEPEST: usize = (MOST_RECORDS - 2 - 8) / 2 - 1;

/// The vocabulary of the jumps: 1 a name; 2 its complement; 3 some to it; 4: 3 within 2; 5 as 3.
fn jump_vocabulary() -> Vec<u8> {
    let mut terms = Terms::new(1);
    let name = terms.name();
    let not = terms.not(name);
    let some = terms.some(0, name);
    terms.within(some, not);
    terms.some(0, name);
    terms.bytes()
}

impl Plan {
    /// Jumps to terms of some depths, which differ in the innermost function or in any.
    fn jumped_terms(&mut self) {
        for depth in [1, 2, 3, 6, 18] {
            for jump in &JUMPS {
                let level = self.random.below(depth);
                self.jump(jump, depth, level, 3);
                self.jump(jump, depth, 0, 2);
            }
        }
        for jump in JUMPS.iter().step_by(2) {
            self.jump(jump, 60, 0, 2);
        }
        // With one record of each term, the parts below the level in which they differ have two.
        let [_, same, .., other] = &JUMPS;
        self.jump(same, DEEPEST, 0, 2);
        self.jump(other, DEEPEST / 10, DEEPEST / 20, 1);
    }

    /// A jump with a t of so many functions, of 3 and 5, and so many records of each term. The other t
    /// differs at a level.
    fn jump(&mut self, jump: &Jump, depth: usize, level: usize, count: usize) {
        let (others, extends, row, at) = *jump;
        let mut functions: Vec<u16> = (0..depth).map(|_| 3 + 2 * self.random.below(2) as u16).collect();
        functions.push(3);
        let mut writer = Writer::new([1, 2]);
        let rungs = push_rungs(&mut writer, &functions, count);
        let other = match others {
            [] => Rungs::new(),
            _ => push_rungs(&mut writer, &exchanged(&functions, level, |f| 8 - f), 1),
        };
        let mut number = |named: Named| {
            let is_t = [Named::Jumped, Named::Applied, Named::Inner].contains(&named);
            let of = if others.contains(&named) { &other } else { &rungs };
            let rung = of.get(if is_t { depth } else { depth + 1 });
            rung.and_then(|rung| self.random.pick(rung)).unwrap_or(0)
        };
        let mut steps = vec![
            step(START, &[0]),
            step(EXTENSION, &[3, 2, number(Named::Jumped), CONSTANT_PLACE, 2]),
            step(EXTENSION, &[3, 1, number(Named::Applied)]),
            step(EXTENSION, &[3, 2, number(Named::Any), number(Named::Met), 2]),
            step(EXTENSION, &[4, 0, number(Named::Stated)]),
            step(EXTENSION, &[2, 0, number(Named::Complement)]),
        ];
        match extends {
            true => steps.extend([
                step(EXTENSION, &[3, 1, number(Named::Inner), 0, 1]),
                step(REDUCTION, &[1]),
            ]),
            false => steps.push(step(REDUCTION, &[2])),
        }
        steps.into_iter().for_each(|record| writer.chained(record));
        writer.link_chain();
        self.add(&jump_vocabulary(), writer.bytes(), &refused(row, writer.place(at)));
    }
}

/// Behind how many steps of sample 9 an extension off the chain stands.
const BEHIND: [usize; 3] = [0, 1, 3];

impl Plan {
    /// Sample 9 with repeats that no step of its chain names: records of f2(a) that an extension off the
    /// chain names as x or as y, and records of f2(f2(a)), which no step has.
    pub fn idle_repeats(&mut self) {
        for behind in BEHIND {
            for words in [[1, 0, 3, 0], [2, 2, 1, 4], [2, 2, 3, 4]] {
                self.idle_repeat(&[AGAIN; 2], Some((step(EXTENSION, &words), behind)));
            }
        }
        let outer = |inner: u16| step(TERM, &[2, inner]);
        for more in [
            &[outer(2), outer(2)][..],
            &[AGAIN, outer(2), outer(3)],
            &[AGAIN, outer(3), outer(2), outer(3)],
            &[outer(2), outer(3), outer(2), outer(5)],
        ] {
            self.idle_repeat(more, None);
        }
    }

    /// Sample 9 with more terms and a step off the chain, behind so many steps; accepted, and refused where
    /// the last step names a.
    fn idle_repeat(&mut self, more: &[Words], idle: Option<(Words, usize)>) {
        for x in [2, CONSTANT_PLACE] {
            let mut writer = Writer::new([2, 1]);
            [AGAIN].iter().chain(more).for_each(|term| {
                writer.push(*term);
            });
            let steps = [
                step(START, &[0]),
                step(EXTENSION, &[2, 1, CONSTANT_PLACE]),
                step(EXTENSION, &[1, 0, x]),
            ];
            let (before, after) = steps.split_at(idle.map_or(0, |(_, behind)| behind));
            before.iter().for_each(|record| writer.chained(*record));
            if let Some((record, _)) = idle {
                writer.push(record);
            }
            after.iter().for_each(|record| writer.chained(*record));
            writer.link_chain();
            let meant = match x {
                CONSTANT_PLACE => refused(21, writer.place(2)),
                _ => "accepted 3".to_string(),
            };
            self.add(&sample_4().bytes(), writer.bytes(), &meant);
        }
    }
}
