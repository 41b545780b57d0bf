//! Terms that have no record of their own, where a literal meets the goal. None of them is equal to
//! what it meets: fi(x) stands in ¬Cj(fi(x)) and ¬r(x,fi(x)) for kind 7, in Cj(fi(x)) and ¬r(x,fi(x))
//! for kind 8. So two function terms meet only in ¬Cj(fi(x)) and Cj(fk(x)), with i and k of different
//! kinds, and never in roles; every other meeting is with a term record. A frame below the last has a
//! goal that an extension met, so that a reduction meets no two terms without a record.

use crate::comparison::Terms;
use crate::script::plan::{refused, Plan};
use crate::script::prover::{Extension, Step, Term};
use crate::script::writer::Writer;

/// A script whose goal meets a literal, or in a reduction a lower frame's goal.
struct Meeting {
    /// The query's A and B.
    query: [u16; 2],
    /// The steps, of which the last is the meeting.
    steps: Vec<Step>,
    /// What stands after them.
    after: Option<Step>,
    /// The terms that meet.
    terms: [Term; 2],
    /// The refusal where they are not the same.
    row: u8,
}

/// The vocabulary: 1 a name; 2 some and 3 all to it; 4 its complement; 5 some to 2; 6 all to 3;
/// 7: 3 within 4; 8 all to 4; 9: 3 within 8.
fn vocabulary() -> Vec<u8> {
    let mut terms = Terms::new(1);
    let name = terms.name();
    let (some, all) = (terms.some(0, name), terms.all(0, name));
    let not = terms.not(name);
    terms.some(0, some);
    terms.all(0, all);
    terms.within(all, not);
    let all_not = terms.all(0, not);
    terms.within(all, all_not);
    terms.bytes()
}

/// An extension by a column's literal, with x; a column of this vocabulary has y where it is number 2.
fn by([owner, column, position]: [u16; 3], x: &[u16], y: &[u16]) -> Step {
    Step::Extension(Extension {
        owner,
        column,
        x: x.to_vec(),
        y: (column == 2).then(|| y.to_vec()),
        position,
    })
}

/// A meeting of a goal, to which steps lead, with the literal of one more step.
fn meeting(query: [u16; 2], mut steps: Vec<Step>, last: Step, terms: [&[u16]; 2]) -> Meeting {
    let row = if matches!(last, Step::Reduction(_)) { 22 } else { 21 };
    steps.push(last);
    Meeting {
        query,
        steps,
        after: None,
        terms: terms.map(<[u16]>::to_vec),
        row,
    }
}

/// The steps to ¬C1(f2(x)) for x of a or f5(a), by column 1, or to ¬r(x,f2(x)), by column 0.
fn some_goal(column: u16, x: &[u16]) -> Vec<Step> {
    let mut steps = vec![Step::Start(0)];
    if !x.is_empty() {
        steps.push(by([5, 1, 0], &[], &[]));
    }
    steps.push(by([2, column, 0], x, &[]));
    steps
}

/// The steps to C1(f3(x)) for x of a or f6(a), by column 1, or to ¬r(x,f3(x)), by column 0.
fn all_goal(column: u16, x: &[u16]) -> Vec<Step> {
    let mut steps = vec![Step::Start(1)];
    if !x.is_empty() {
        steps.push(by([6, 1, 0], &[], &[]));
    }
    steps.push(by([3, column, 0], x, &[]));
    steps
}

/// ¬C1(f2(x)) and C1(f3(x)), each of which is once the goal. Where both x are the constant, the script
/// would close all.
fn functions() -> Vec<Meeting> {
    let mut all: Vec<Meeting> = Vec::new();
    let constants = |x: &[u16], inner: &[u16]| x.is_empty() && inner.is_empty();
    for x in [&[][..], &[5], &[6]] {
        for (query, inner) in [([2, 3], &[][..]), ([5, 3], &[5])] {
            let terms = [&[&[2], inner].concat()[..], &[&[3], x].concat()];
            let mut made = meeting(query, some_goal(1, inner), by([3, 1, 1], x, &[]), terms);
            made.after = constants(x, inner).then(|| by([0, 1, 0], &[], &[]));
            all.push(made);
        }
        for (query, inner) in [([2, 3], &[][..]), ([2, 6], &[6])] {
            let terms = [&[&[3], inner].concat()[..], &[&[2], x].concat()];
            let mut made = meeting(query, all_goal(1, inner), by([2, 1, 1], x, &[]), terms);
            made.after = constants(x, inner).then(|| by([0, 0, 0], &[], &[]));
            all.push(made);
        }
    }
    all
}

/// ¬C1(f2(a)), C1(f3(a)), ¬r(a,f2(a)) and ¬r(a,f3(a)) as goals that meet a term record: what the
/// function is applied to, another function of it, the same function of f5(a), and the term itself.
fn goals() -> Vec<Meeting> {
    let mut all = Vec::new();
    for t in [&[][..], &[2], &[3], &[2, 5], &[3, 5]] {
        let some = [by([4, 0, 1], t, &[]), by([2, 2, 2], &[], t)];
        for last in some {
            all.push(meeting([2, 3], some_goal(1, &[]), last, [&[2], t]));
        }
        let every = [by([4, 1, 1], t, &[]), by([3, 2, 2], &[], t)];
        for last in every {
            all.push(meeting([2, 3], all_goal(1, &[]), last, [&[3], t]));
        }
        for owner in [2, 3] {
            let last = by([owner, 2, 1], &[], t);
            all.push(meeting([2, 3], some_goal(0, &[]), last.clone(), [&[2], t]));
            all.push(meeting([2, 3], all_goal(0, &[]), last, [&[3], t]));
        }
    }
    all
}

/// The same terms in the literals of a column that meet goals of term records: C1(a), ¬C1(a), r(a,y)
/// for each such y, and C1(f2(a)).
fn literals() -> Vec<Meeting> {
    let mut all = Vec::new();
    let start = |column| vec![Step::Start(column)];
    all.push(meeting([1, 1], start(1), by([2, 1, 1], &[], &[]), [&[], &[2]]));
    all.push(meeting([1, 1], start(0), by([3, 1, 1], &[], &[]), [&[], &[3]]));
    for y in [&[][..], &[2], &[3], &[2, 5], &[3, 5]] {
        for owner in [2, 3] {
            let before = [start(1), vec![by([2, 2, 0], &[], y)]].concat();
            let last = by([owner, 0, 1], &[], &[]);
            all.push(meeting([3, 2], before, last, [y, &[owner]]));
        }
    }
    for x in [&[][..], &[2], &[5]] {
        let steps = [
            Step::Start(1),
            by([2, 2, 0], &[], &[2]),
            by([2, 0, 1], &[], &[]),
            by([0, 0, 0], &[], &[]),
        ];
        let last = by([2, 1, 1], x, &[]);
        let term = [&[2], x].concat();
        all.push(meeting([2, 2], steps.to_vec(), last, [&[2], &term]));
    }
    all
}

/// Reductions of C1(f3(x)) against ¬C1(t), after steps that make it the goal of a frame: t is what the
/// function is applied to, another function of it, the same function of another, and the term itself.
fn reductions() -> Vec<Meeting> {
    let some = || some_goal(1, &[]);
    let all = || {
        let steps = [
            Step::Start(0),
            by([3, 2, 0], &[], &[3]),
            by([3, 0, 1], &[], &[]),
            by([0, 1, 0], &[], &[]),
        ];
        steps.to_vec()
    };
    let rows: [(_, Vec<Step>, &[u16], &[u16]); 5] = [
        ([1, 1], vec![Step::Start(0)], &[], &[]),
        ([2, 3], some(), &[2], &[2]),
        ([2, 3], some(), &[2], &[]),
        ([3, 3], all(), &[3], &[3]),
        ([3, 3], all(), &[3], &[]),
    ];
    let reduction = |(query, mut steps, t, x): (_, Vec<Step>, &[u16], &[u16])| {
        let frame = u16::from(!t.is_empty());
        steps.push(by([4, 0, 1], t, &[]));
        if t == x {
            steps.push(by([7, 0, 1], t, &[]));
        } else {
            steps.push(by([8, 2, 2], x, t));
            steps.push(by([9, 0, 1], x, &[]));
        }
        steps.push(by([3, 1, 0], x, &[]));
        let goal = [&[3], x].concat();
        meeting(query, steps, Step::Reduction(frame), [&goal, t])
    };
    rows.into_iter().map(reduction).collect()
}

impl Plan {
    /// All meetings.
    pub fn unrecorded(&mut self) {
        let all = [functions(), goals(), literals(), reductions()];
        for meeting in all.iter().flatten() {
            self.meet(meeting);
        }
    }

    /// A meeting with the records that its steps need, and with records for one or both of its terms
    /// that have none. The chain ends with it, which is 24, unless it is refused.
    fn meet(&mut self, meeting: &Meeting) {
        let needed = meeting.written(&[]);
        let has_none = |term: &&Term| needed.terms.iter().all(|(known, _)| known != *term);
        let without: Vec<&Term> = meeting.terms.iter().filter(has_none).collect();
        let number = if meeting.terms[0] == meeting.terms[1] {
            24
        } else {
            meeting.row
        };
        for chosen in 0..1 << without.len() {
            let numbered = without.iter().enumerate();
            let given = numbered.filter(|(i, _)| chosen >> i & 1 == 1);
            let writer = meeting.written(&given.map(|(_, term)| *term).collect::<Vec<_>>());
            let place = writer.place(meeting.steps.len() - 1);
            self.add(&vocabulary(), writer.bytes(), &refused(number, place));
        }
    }
}

impl Meeting {
    /// The script, with records for these terms before all steps.
    fn written(&self, given: &[&Term]) -> Writer {
        let mut writer = Writer::new(self.query);
        for term in given {
            writer.term(term);
        }
        for step in self.steps.iter().chain(&self.after) {
            writer.step(step);
        }
        writer.link_chain();
        writer
    }
}
