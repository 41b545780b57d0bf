//! The record numbers that lines of a text may begin with.

use super::cursor::{Cursor, Here};
use super::said::Term;

/// The most names that a message lists.
const LISTED: usize = 8;

/// Takes the record number that a line may begin with, and where it stands.
pub fn take_number(line: &mut Cursor) -> Option<(Here, u16)> {
    if !line.peek().is_some_and(|next| next.is_ascii_digit()) {
        return None;
    }
    let place = line.here();
    let written = line.number();
    line.skip_digits();
    if let Err(fault) = line.symbol(':') {
        line.note_guess(line.here(), &fault.message);
        return None;
    }
    written
        .map_err(|fault| line.note(place, &fault.message))
        .ok()
        .map(|written| (place, written))
}

/// By how much the numbers that lines begin with are off.
pub struct Numbers {
    /// By how much the last was off; nothing where a faulty line leaves open how many records there are.
    off: Option<i32>,
    /// The terms that were made since.
    made: Vec<Term>,
}

impl Default for Numbers {
    fn default() -> Numbers {
        Numbers {
            off: Some(0),
            made: Vec::new(),
        }
    }
}

impl Numbers {
    /// Notes what was made for a line, and whether it is left open how many records that are.
    pub fn made(&mut self, made: &[Term], is_open: bool) {
        self.made.extend(made);
        if is_open {
            self.off = None;
        }
    }

    /// Whether numbers are off, or may be.
    pub fn are_off(&self) -> bool {
        self.off != Some(0)
    }

    /// Says so where the number that a line begins with is not the one that its record has. One that is off by as much as the
    /// last is not noted again, since one line is missing or too many.
    pub fn check(&mut self, line: &mut Cursor, written: Option<(Here, u16)>, number: usize) {
        let Some((place, written)) = written else {
            return;
        };
        let off = i32::from(written) - number as i32;
        let before = self.off.replace(off);
        let made = std::mem::take(&mut self.made);
        if off == 0 || before.is_none_or(|before| before == off) {
            return;
        }
        line.note(place, &format!("this line is record {number}{}", made_words(&made)));
    }
}

/// That terms were made, with the names among them, which may be mistyped.
fn made_words(made: &[Term]) -> String {
    let names = made.iter().filter_map(|term| term.label()).take(LISTED);
    let names: Vec<String> = names.map(|label| format!("c{label}")).collect();
    let names = match names.len() {
        0 => String::new(),
        _ => format!(": {}", names.join(", ")),
    };
    match made.len() {
        0 => String::new(),
        1 => format!("; a term is made before it that no line says{names}"),
        count => format!("; {count} terms are made before it that no line says{names}"),
    }
}
