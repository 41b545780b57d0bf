//! The points of the script check in which a wrong check (`errors/`) may differ. Each default is
//! the paper's.

use crate::script::chain::{complements, run, Frame, Goal, Machine, MOST_FRAMES};
use crate::script::form;
use crate::script::records::{Script, Term};
use crate::vocabulary::records::Record;
use crate::vocabulary::{chain, Refusal};

/// A script check.
pub trait Rules {
    /// The statements that have a column: those on the chain.
    fn statements(&self, records: &[Record]) -> Vec<u16> {
        chain(records)
    }

    /// Rows 14, 10 and 15 to 19.
    fn form(&self, script: &Script) -> Result<(), Refusal> {
        form::check_form(self, script)
    }

    /// Whether one of rows 15 to 18 applies to the record at a place.
    fn applies(&self, row: u8, script: &Script, place: usize) -> bool {
        form::applies(row, script, place)
    }

    /// Rows 20 to 25, and the number of steps.
    fn run(&self, script: &Script) -> Result<usize, Refusal> {
        run(self, script)
    }

    /// The rows that are tried at each step, in their order.
    fn rows(&self) -> &'static [u8] {
        &[25, 20, 21, 22, 23]
    }

    /// The number with which a row refuses.
    fn number(&self, row: u8) -> u8 {
        row
    }

    /// Row 20: the first step, and no other, is a start.
    fn misplaced(&self, is_start: bool, started: bool) -> bool {
        is_start == started
    }

    /// The most frames.
    fn most_frames(&self) -> usize {
        MOST_FRAMES
    }

    /// Whether an extension by a column opens a frame: where it has another literal.
    fn opens(&self, column: &[Goal]) -> bool {
        column.len() > 1
    }

    /// Whether two terms are equal, written out.
    fn same_term(&self, script: &Script, s: Term, t: Term) -> bool {
        script.written_out(s) == script.written_out(t)
    }

    /// The position at which a column connects with the goal: the one given, if that literal is
    /// the goal's complement.
    fn connection(&self, script: &Script, column: &[Goal], position: usize, goal: &Goal) -> Option<usize> {
        let literal = column.get(position)?;
        complements(self, script, literal, goal).then_some(position)
    }

    /// The literals of a column but the one at a position, in their order.
    fn others(&self, column: &[Goal], position: usize) -> Vec<Goal> {
        let others = column.iter().enumerate().filter(|(at, _)| *at != position);
        others.map(|(_, literal)| literal.clone()).collect()
    }

    /// Whether a lower frame's own goal is the complement of the goal.
    fn reduces(&self, script: &Script, frame: &Frame, goal: &Goal) -> bool {
        let own = frame.goal();
        own.is_some_and(|own| complements(self, script, own, goal))
    }

    /// Closes the goal, and the frames that have no open literal left.
    fn close(&self, machine: &mut Machine) {
        machine.close();
    }

    /// The place of row 24: the last step of the chain.
    fn last(&self, _script: &Script, steps: &[usize]) -> usize {
        steps.last().copied().unwrap_or(0)
    }

    /// The number of steps: those of the chain.
    fn count(&self, _script: &Script, steps: &[usize]) -> usize {
        steps.len()
    }
}

/// The paper's script check.
pub struct Paper;

impl Rules for Paper {}
