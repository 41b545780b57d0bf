//! Files of cases from which some are chosen: those that are new, or every so many.

use crate::cases;
use std::collections::BTreeSet;

/// How a sort of cases is written.
struct Form {
    /// The bytes of a case's head.
    head: usize,
    /// Where in it the lengths stand of what follows it.
    lengths: &'static [usize],
    /// The byte of it that says no more than what the lent bytes hold before the call.
    filling: Option<usize>,
}

/// The form of the cases that a subcommand makes.
fn form(name: &str) -> Result<Form, String> {
    let (head, lengths, filling): (usize, &[usize], _) = match name {
        "vocabulary" => (6, &[0], None),
        "comparison" => (13, &[0], Some(12)),
        "classification" => (7, &[0], Some(6)),
        "script" => (4, &[0, 2], None),
        "writer" => (19, &[0], Some(4)),
        _ => return Err(format!("there are no cases by the name {name}")),
    };
    Ok(Form { head, lengths, filling })
}

impl Form {
    /// The bytes of the case that bytes begin with, and what is left.
    fn split<'a>(&self, bytes: &'a [u8]) -> Option<(Vec<u8>, &'a [u8])> {
        let mut end = self.head;
        for at in self.lengths {
            let (length, _) = bytes.get(*at..)?.split_first_chunk()?;
            end += usize::from(u16::from_le_bytes(*length));
        }
        let (case, rest) = bytes.split_at_checked(end)?;
        Some((case.to_vec(), rest))
    }

    /// The cases of a file, each as its bytes.
    fn cases(&self, file: &[u8]) -> Result<Vec<Vec<u8>>, String> {
        cases::decode(file, |bytes| self.split(bytes))
    }

    /// What tells a case from others.
    fn key(&self, case: &[u8]) -> Vec<u8> {
        let mut key = case.to_vec();
        if let Some(byte) = self.filling.and_then(|at| key.get_mut(at)) {
            *byte = 0;
        }
        key
    }
}

/// The cases of a file, each once, that another file has not.
pub fn new(name: &str, stored: &[u8], file: &[u8]) -> Result<Vec<u8>, String> {
    let form = form(name)?;
    let old = form.cases(stored)?;
    let mut seen: BTreeSet<Vec<u8>> = old.iter().map(|case| form.key(case)).collect();
    let mut kept = form.cases(file)?;
    kept.retain(|case| seen.insert(form.key(case)));
    Ok(kept.concat())
}

/// The first case of a file, and every one that stands so many after one chosen.
pub fn every(name: &str, step: &str, file: &[u8]) -> Result<Vec<u8>, String> {
    let step: usize = step.parse().map_err(|_| "a step is a number")?;
    let all = form(name)?.cases(file)?;
    let chosen: Vec<Vec<u8>> = all.into_iter().step_by(step.max(1)).collect();
    Ok(chosen.concat())
}
