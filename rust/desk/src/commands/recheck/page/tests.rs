//! The list of files keeps to its room, and tells what has changed.

use super::super::kept::Seen;
use super::listed::Listed;
use crate::files::Digest;
use std::sync::Arc;

fn seen(name: &str, what: &'static str, bytes: u64) -> Arc<Seen> {
    Arc::new(Seen {
        name: name.to_string(),
        what,
        id: None,
        digest: Some(Digest {
            sha256: Some(format!("{bytes:064}")),
            bytes,
        }),
    })
}

/// The names of the listed files, and whether each has changed.
fn names(listed: &Listed) -> Vec<(&str, bool)> {
    let files = listed.in_order();
    files
        .iter()
        .map(|file| (file.seen.name.as_str(), file.changed))
        .collect()
}

#[test]
fn each_file_is_listed_once_with_its_first_bytes() {
    let mut listed = Listed::new();
    assert!(listed.has(&seen("b", "vocabulary", 1)));
    assert!(listed.has(&seen("a", "vocabulary", 2)));
    assert!(listed.has(&seen("b", "script", 3)));
    assert!(listed.has(&seen("b", "vocabulary", 1)));
    // The same name with other bytes.
    assert!(!listed.has(&seen("a", "vocabulary", 5)));
    assert!(listed.has(&seen("a", "vocabulary", 2)));
    assert_eq!(names(&listed), [("b", false), ("a", true), ("b", false)]);
    assert!(!listed.is_full);
}

#[test]
fn what_has_no_room_is_not_listed() {
    let mut listed = Listed::with_room(600);
    assert!(listed.has(&seen("a", "vocabulary", 1)));
    assert!(listed.has(&seen("b", "vocabulary", 2)));
    assert!(!listed.has(&seen("c", "vocabulary", 3)));
    assert!(listed.has(&seen("a", "vocabulary", 1)));
    assert!(!listed.has(&seen("c", "vocabulary", 3)));
    assert_eq!(names(&listed), [("a", false), ("b", false)]);
    assert!(listed.is_full);
    let mut listed = Listed::with_room(600);
    assert!(!listed.has(&seen(&"x".repeat(400), "vocabulary", 1)));
}
