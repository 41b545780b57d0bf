//! Notes on inputs, for standard error: what does not change the answer or its status, but has to be known to trust it. They
//! are told with the next answer, since another thread may read the input. Each is told once in a run.

use std::collections::BTreeSet;
use std::sync::{Mutex, PoisonError};

/// What is noted, and what of it is told.
struct Notes {
    pending: Vec<String>,
    told: BTreeSet<String>,
}

static NOTES: Mutex<Notes> = Mutex::new(Notes {
    pending: Vec::new(),
    told: BTreeSet::new(),
});

/// Notes something, unless it was noted before.
pub fn add(note: String) {
    let mut notes = NOTES.lock().unwrap_or_else(PoisonError::into_inner);
    if notes.told.insert(note.clone()) {
        notes.pending.push(note);
    }
}

/// What is noted and not yet told, a line each.
pub fn take() -> String {
    let mut notes = NOTES.lock().unwrap_or_else(PoisonError::into_inner);
    notes.pending.drain(..).map(|note| format!("{note}\n")).collect()
}
