//! The files by which lines were judged, each once.
//!
//! A table may name any number of files, and memory has an end: those for which there is no room, and those that have
//! changed since they were listed, are told at each line that was judged by them.

use super::super::kept::Seen;
use std::collections::BTreeMap;
use std::sync::Arc;

/// About how many bytes may be listed: some 50,000 files.
const ROOM: usize = 16 << 20;
/// About how many bytes a file takes beside its name, which is kept twice.
const EACH: usize = 250;

/// The files that are listed.
pub struct Listed {
    /// By name, and by what each is.
    files: BTreeMap<(String, &'static str), File>,
    room: usize,
    /// Whether some file found no room.
    pub is_full: bool,
}

/// A file of the list.
pub struct File {
    /// As it was read first.
    pub seen: Arc<Seen>,
    /// Whether it had other bytes later.
    pub changed: bool,
    /// Which of the files it is.
    order: usize,
}

impl Listed {
    /// No files.
    pub fn new() -> Listed {
        Listed::with_room(ROOM)
    }

    pub(super) fn with_room(room: usize) -> Listed {
        Listed {
            files: BTreeMap::new(),
            room,
            is_full: false,
        }
    }

    /// Whether a file is listed with these bytes; it is then, if there is room and it has not been listed with others.
    pub fn has(&mut self, seen: &Arc<Seen>) -> bool {
        let key = (seen.name.clone(), seen.what);
        if let Some(file) = self.files.get_mut(&key) {
            let is_same = file.seen.digest == seen.digest;
            file.changed |= !is_same;
            return is_same;
        }
        let size = 2 * seen.name.len() + EACH;
        if self.is_full || size > self.room {
            self.is_full = true;
            return false;
        }
        self.room -= size;
        let file = File {
            seen: seen.clone(),
            changed: false,
            order: self.files.len(),
        };
        self.files.insert(key, file);
        true
    }

    /// The files, in the order in which lines first name them.
    pub fn in_order(&self) -> Vec<&File> {
        let mut files: Vec<&File> = self.files.values().collect();
        files.sort_by_key(|file| file.order);
        files
    }
}
