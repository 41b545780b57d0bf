//! Checks that are wrong in a row of the table, in the frames, in signs and predicates, or altogether.

use crate::comparison::atoms;
use crate::script::chain::{complements, run, run_steps, Frame, Goal, Machine};
use crate::script::columns::{mentions, Argument};
use crate::script::form::{self, check_form, check_header, check_query, check_records, may_follow, unused};
use crate::script::records::{
    chain, is_step, Script, Term, COLUMN, EXTENSION, FIRST, FRAME, KIND, NEXT, OWNER, REDUCTION, Y,
};
use crate::script::rules::{Paper, Rules};
use crate::vocabulary::records::Record;
use crate::vocabulary::{refuse_if, Refusal};

/// How many steps the check tests that waves the later ones through.
const TESTED: usize = 3;

/// Whether two literals have the same predicate and arguments, whatever their signs.
fn same_atom(script: &Script, l: &Goal, m: &Goal) -> bool {
    let same = |(s, t): (&Term, &Term)| script.written_out(*s) == script.written_out(*t);
    l.predicate == m.predicate && l.arguments.iter().zip(&m.arguments).all(same)
}

/// Rows 15 to 18 that apply anywhere, the smallest number first.
fn by_number(script: &Script) -> Result<(), Refusal> {
    for row in 15..=18 {
        for place in 1..script.records.len() {
            refuse_if(form::applies(row, script, place), row, place)?;
        }
    }
    Ok(())
}

/// The steps of a script, on the chain or not.
fn all_steps(script: &Script) -> impl Iterator<Item = usize> + '_ {
    (1..script.records.len()).filter(|place| is_step(script.word(*place, KIND)))
}

/// Whether the record at a place is an extension with a w4 that its column does not need.
fn has_idle_y(script: &Script, place: usize) -> bool {
    let record = script.record(place);
    let columns = script.matrix.columns(record[OWNER]);
    let column = columns.get(usize::from(record[COLUMN]));
    let without = column.is_some_and(|column| !mentions(column, Argument::Y));
    record[KIND] == EXTENSION && without && record[Y] != 0
}

/// Whether the chain, as far as it can be followed, comes to a place.
fn is_reached(script: &Script, place: usize) -> bool {
    let (mut at, mut next) = (0, usize::from(script.word(0, FIRST)));
    while at < next && next < place {
        at = next;
        next = script.word(at, NEXT).into();
    }
    next == place
}

wrong! {
    "refuses everything" RefusesAll {
        fn form(&self, _: &Script) -> Result<(), Refusal> {
            refuse_if(true, 24, 0)
        }
    }
    "accepts what keeps the form" AcceptsForm {
        fn run(&self, script: &Script) -> Result<usize, Refusal> {
            Ok(chain(&script.records).len())
        }
    }
    "only the first 3 steps tested" FirstSteps {
        fn run(&self, script: &Script) -> Result<usize, Refusal> {
            let steps = chain(&script.records);
            let Some((first, [_, ..])) = steps.split_at_checked(TESTED) else {
                return run(self, script);
            };
            run_steps(self, script, first)?;
            Ok(steps.len())
        }
    }
    "24 before the chain is run" EndFirst {
        fn run(&self, script: &Script) -> Result<usize, Refusal> {
            let steps = chain(&script.records);
            refuse_if(steps.is_empty(), 20, 0)?;
            refuse_if(true, 24, self.last(script, &steps))?;
            Ok(steps.len())
        }
    }
    "a chain without steps accepted" NoStep {
        fn run(&self, script: &Script) -> Result<usize, Refusal> {
            if chain(&script.records).is_empty() { Ok(0) } else { run(self, script) }
        }
    }
    "signs not compared" AnySign {
        fn connection(&self, script: &Script, column: &[Goal], at: usize, goal: &Goal) -> Option<usize> {
            same_atom(script, column.get(at)?, goal).then_some(at)
        }
    }
    "signs not compared in reductions" AnyReducedSign {
        fn reduces(&self, script: &Script, frame: &Frame, goal: &Goal) -> bool {
            frame.goal().is_some_and(|own| same_atom(script, own, goal))
        }
    }
    "a statement off the chain used" OffChain {
        fn statements(&self, records: &[Record]) -> Vec<u16> {
            let all = (0..).zip(records).filter(|(_, record)| record.is_statement());
            all.map(|(number, _)| number).collect()
        }
    }
    "reduction against any open literal" OpenLiterals {
        fn reduces(&self, script: &Script, frame: &Frame, goal: &Goal) -> bool {
            let mut open = frame.literals.iter().skip(frame.closed);
            open.any(|literal| complements(self, script, literal, goal))
        }
    }
    "reduction against closed literals" ClosedLiterals {
        fn reduces(&self, script: &Script, frame: &Frame, goal: &Goal) -> bool {
            let mut known = frame.literals.iter().take(frame.closed + 1);
            known.any(|literal| complements(self, script, literal, goal))
        }
    }
    "any reduction passes" AnyReduction {
        fn reduces(&self, _: &Script, _: &Frame, _: &Goal) -> bool {
            true
        }
    }
    "at most 63 frames" FewerFrames {
        fn most_frames(&self) -> usize {
            63
        }
    }
    "at most 65 frames" MoreFrames {
        fn most_frames(&self) -> usize {
            65
        }
    }
    "a column of one literal counted as a frame" FrameForOne {
        fn opens(&self, _: &[Goal]) -> bool {
            true
        }
    }
    "only one frame closed" OneFrame {
        fn close(&self, machine: &mut Machine) {
            let Some(mut last) = machine.frames.pop() else { return };
            last.closed += 1;
            if last.goal().is_some() {
                machine.frames.push(last);
            } else if let Some(under) = machine.frames.last_mut() {
                under.closed += 1;
            }
        }
    }
    "a closed frame leaves the goal under it" GoalStays {
        fn close(&self, machine: &mut Machine) {
            let Some(mut last) = machine.frames.pop() else { return };
            last.closed += 1;
            if last.goal().is_some() {
                machine.frames.push(last);
            }
        }
    }
    "other literals reversed" Reversed {
        fn others(&self, column: &[Goal], at: usize) -> Vec<Goal> {
            Paper.others(column, at).into_iter().rev().collect()
        }
    }
    "equal literals taken as one" AsSet {
        fn others(&self, column: &[Goal], at: usize) -> Vec<Goal> {
            let mut others: Vec<Goal> = Vec::new();
            for literal in Paper.others(column, at) {
                if column.get(at) != Some(&literal) && !others.contains(&literal) {
                    others.push(literal);
                }
            }
            others
        }
    }
    "all literals but the first opened" AfterFirst {
        fn others(&self, column: &[Goal], _: usize) -> Vec<Goal> {
            column.iter().skip(1).cloned().collect()
        }
    }
    "position ignored" AnyPosition {
        fn connection(&self, script: &Script, column: &[Goal], _: usize, goal: &Goal) -> Option<usize> {
            column.iter().position(|literal| complements(self, script, literal, goal))
        }
    }
    "22 given as 21" ReductionAsExtension {
        fn number(&self, row: u8) -> u8 {
            if row == 22 { 21 } else { row }
        }
    }
    "23 before 21" FramesFirst {
        fn rows(&self) -> &'static [u8] {
            &[25, 20, 23, 21, 22]
        }
    }
    "20 before 25" StartFirst {
        fn rows(&self) -> &'static [u8] {
            &[20, 25, 21, 22, 23]
        }
    }
    "25 not given" NoLate {
        fn rows(&self) -> &'static [u8] {
            &[20, 21, 22, 23]
        }
    }
    "steps after all is closed passed over" LatePassed {
        fn run(&self, script: &Script) -> Result<usize, Refusal> {
            let steps = chain(&script.records);
            match run(self, script) {
                Err(Refusal { number: 25, .. }) => Ok(steps.len()),
                answer => answer,
            }
        }
    }
    "a second start allowed" SecondStart {
        fn misplaced(&self, is_start: bool, started: bool) -> bool {
            !is_start && !started
        }
    }
    "steps off the chain counted" AllCounted {
        fn count(&self, script: &Script, _: &[usize]) -> usize {
            all_steps(script).count()
        }
    }
    "24 at the script's last record" LastRecord {
        fn last(&self, script: &Script, _: &[usize]) -> usize {
            script.records.len() - 1
        }
    }
    "24 at the script's last step" LastStep {
        fn last(&self, script: &Script, _: &[usize]) -> usize {
            all_steps(script).last().unwrap_or(0)
        }
    }
    "15 to 18 by number, not by record" ByNumber {
        fn form(&self, script: &Script) -> Result<(), Refusal> {
            check_header(script)?;
            check_query(script)?;
            refuse_if(script.records.len() < 2, 17, 1)?;
            by_number(script)?;
            check_form(self, script)
        }
    }
    "10 before 14" QueryFirst {
        fn form(&self, script: &Script) -> Result<(), Refusal> {
            check_query(script)?;
            check_form(self, script)
        }
    }
    "18 before 17" StepRuleFirst {
        fn applies(&self, row: u8, script: &Script, place: usize) -> bool {
            let later = row == 17 && form::applies(18, script, place);
            form::applies(row, script, place) && !later
        }
    }
    "a w4 without y given as 16" IdleYUnused {
        fn applies(&self, row: u8, script: &Script, place: usize) -> bool {
            form::applies(row, script, place) || (row == 16 && has_idle_y(script, place))
        }
    }
    "w7 of terms not looked at" TermNext {
        fn applies(&self, row: u8, script: &Script, place: usize) -> bool {
            let mut words = unused(script.word(place, KIND)).iter().filter(|word| **word != NEXT);
            match row {
                16 => words.any(|word| script.word(place, *word) != 0),
                _ => form::applies(row, script, place),
            }
        }
    }
    "18 looked at on the chain alone" IdleSteps {
        fn applies(&self, row: u8, script: &Script, place: usize) -> bool {
            form::applies(row, script, place) && (row != 18 || is_reached(script, place))
        }
    }
    "19 looked at on the chain alone" IdleLinks {
        fn form(&self, script: &Script) -> Result<(), Refusal> {
            check_header(script)?;
            check_query(script)?;
            check_records(self, script)?;
            let (mut place, mut next) = (0, script.word(0, FIRST));
            while next != 0 {
                refuse_if(!may_follow(script, next, place), 19, place)?;
                place = next.into();
                next = script.word(place, NEXT);
            }
            Ok(())
        }
    }
    "a reduction's frame looked at off the chain" FrameForm {
        fn applies(&self, row: u8, script: &Script, place: usize) -> bool {
            let high = usize::from(script.word(place, FRAME)) >= self.most_frames();
            let reduction = script.word(place, KIND) == REDUCTION;
            form::applies(row, script, place) || (row == 18 && reduction && high)
        }
    }
    "scripts over 13 atoms and more refused" ManyAtoms {
        fn run(&self, script: &Script) -> Result<usize, Refusal> {
            let k = atoms(&script.matrix.records).len();
            refuse_if(k > 12, 11, k)?;
            run(self, script)
        }
    }
}
