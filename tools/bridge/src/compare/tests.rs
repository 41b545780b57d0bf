//! Which disagreements count against the library.

use super::{is_open, status, summary, Score, Shares};
use crate::reasoner::Reply;
use base::Status;

fn shares(different: usize, confirmed: usize) -> Shares {
    Shares {
        different,
        confirmed,
        ..Shares::default()
    }
}

fn score(steady: usize, open: usize) -> Score {
    Score {
        steady,
        open,
        unsteady: 3,
        silent: 2,
        ..Score::default()
    }
}

#[test]
fn a_steady_denial_of_equal_counts_unless_the_reasoner_contradicts_itself() {
    for (expected, written_out, counts) in [
        (Reply::Equal, Reply::Different, true),
        (Reply::Equal, Reply::OutOfTime, true),
        (Reply::Equal, Reply::NoAnswer, true),
        (Reply::Equal, Reply::Equal, false),
        (Reply::Different, Reply::Equal, false),
        (Reply::Different, Reply::Different, false),
        (Reply::Different, Reply::NoAnswer, false),
    ] {
        assert_eq!(is_open(expected, written_out), counts, "{expected:?}, {written_out:?}");
    }
}

#[test]
fn it_does_not_hold_where_an_answer_is_left_open() {
    let known = [score(0, 0), score(5, 0)];
    assert_eq!(status(&shares(4, 4), &known), Status::Holds);
    assert_eq!(status(&shares(4, 3), &known), Status::DoesNotHold);
    assert_eq!(status(&shares(4, 4), &[score(0, 0), score(5, 1)]), Status::DoesNotHold);
    let said = summary(&shares(4, 2), &[score(1, 1), score(5, 2)]);
    assert!(said.starts_with("left open: 2 different "), "{said}");
    assert!(said.contains(", 3 denials "), "{said}");
}
