//! Calls that are wrong in one point: what they refuse, in which order, and what they write besides the table.

use crate::classification::call::Classified;
use crate::classification::file::Case;
use crate::classification::print::{run, Outcome};
use crate::classification::taxonomy::{names, TABLE_BYTES};
use crate::comparison::{Set, MOST_ATOMS, WRITTEN};
use crate::vocabulary::records::records;
use crate::vocabulary::Refusal;

/// A wrong call: its name, and what it does with a case, by what the right one does.
type WrongCall = (&'static str, fn(&Case, &Outcome) -> Outcome);

/// The wrong calls.
pub const CALLS: [WrongCall; 16] = [
    ("survivors written on 26", survivors_on_26),
    ("table written on 12", table_on_12),
    ("rest of the 144 bytes kept", rest_kept),
    ("rest kept with no name", rest_kept_without_names),
    ("bytes from 144 on cleared", later_cleared),
    ("bytes from 512 on cleared", later_survivors_cleared),
    ("bytes from 144 on taken from the other buffer", later_taken),
    ("bytes from 512 on taken from the other buffer", later_survivors_taken),
    ("12 after 26", order_26_12),
    ("12 before 11", order_12_11),
    ("26 before 11", order_26_11),
    ("names alone counted for 11", names_counted),
    ("as many bytes asked for as the table has", few_asked),
    ("143 bytes enough", one_less_asked),
    ("145 bytes asked for", one_more_asked),
    ("26 with the bytes lent as its place", place_of_26),
];

/// What the right call does where as many bytes are lent as are asked for; a lent number that is enough stays.
fn with_enough(case: &Case) -> Outcome {
    let [survivors, taxonomy] = case.lent;
    run(&Case {
        lent: [survivors.max(WRITTEN as u16), taxonomy.max(TABLE_BYTES as u16)],
        ..case.clone()
    })
}

/// The refusal's number of an outcome, 0 where there is none.
fn refusal(outcome: &Outcome) -> u8 {
    outcome.answer.as_ref().map_or_else(|refusal| refusal.number, |_| 0)
}

/// An outcome with another refusal, where it applies.
fn refused(right: &Outcome, applies: bool, number: u8, place: usize) -> Outcome {
    let mut wrong = right.clone();
    if applies {
        wrong.answer = Err(Refusal { number, place });
    }
    wrong
}

/// Whether so few bytes are lent for the survivors, or for the taxonomy, that this is refused.
fn too_few(case: &Case) -> [bool; 2] {
    let [survivors, taxonomy] = case.lent.map(usize::from);
    [survivors < WRITTEN, taxonomy < TABLE_BYTES]
}

/// The survivors are written before 26 is found.
fn survivors_on_26(case: &Case, right: &Outcome) -> Outcome {
    let mut wrong = right.clone();
    if refusal(right) == 26 {
        let [written, _] = with_enough(case).buffers;
        wrong.buffers[0] = written;
    }
    wrong
}

/// The table is written before 12 is found, where there is room for it.
fn table_on_12(case: &Case, right: &Outcome) -> Outcome {
    let mut wrong = right.clone();
    let [_, no_room] = too_few(case);
    if refusal(right) == 12 && !no_room {
        let [_, written] = with_enough(case).buffers;
        wrong.buffers[1] = written;
    }
    wrong
}

/// The right outcome with the taxonomy's bytes before the call from one on, up to another.
fn kept(case: &Case, right: &Outcome, from: usize, end: usize) -> Outcome {
    let [_, before] = case.buffers();
    let mut wrong = right.clone();
    let [_, taxonomy] = &mut wrong.buffers;
    for (byte, old) in taxonomy.iter_mut().zip(before).take(end).skip(from) {
        *byte = old;
    }
    wrong
}

/// How many names the vocabulary of a case has.
fn count(case: &Case) -> usize {
    names(&records(&case.vocabulary)).len()
}

/// The rest of the first 144 bytes keeps its content.
fn rest_kept(case: &Case, right: &Outcome) -> Outcome {
    kept(case, right, count(case).pow(2), TABLE_BYTES)
}

/// With no name nothing is written into the second buffer.
fn rest_kept_without_names(case: &Case, right: &Outcome) -> Outcome {
    let end = if count(case) == 0 { TABLE_BYTES } else { 0 };
    kept(case, right, 0, end)
}

/// The right outcome with a buffer's bytes from one on cleared, where the call is not refused.
fn cleared(right: &Outcome, from: [usize; 2]) -> Outcome {
    let mut wrong = right.clone();
    for (buffer, from) in wrong.buffers.iter_mut().zip(from) {
        if right.answer.is_ok() {
            buffer.iter_mut().skip(from).for_each(|byte| *byte = 0);
        }
    }
    wrong
}

/// All that is lent for the taxonomy is cleared.
fn later_cleared(_: &Case, right: &Outcome) -> Outcome {
    cleared(right, [usize::MAX, TABLE_BYTES])
}

/// All that is lent for the survivors is cleared.
fn later_survivors_cleared(_: &Case, right: &Outcome) -> Outcome {
    cleared(right, [WRITTEN, usize::MAX])
}

/// The right outcome with a buffer's bytes from one on as the other had them before, where the call is not refused.
fn taken(case: &Case, right: &Outcome, from: [usize; 2]) -> Outcome {
    let mut wrong = right.clone();
    let [survivors, taxonomy] = case.buffers();
    let others = [taxonomy, survivors];
    for ((buffer, other), from) in wrong.buffers.iter_mut().zip(others).zip(from) {
        if right.answer.is_ok() {
            let later = buffer.iter_mut().zip(other).skip(from);
            later.for_each(|(byte, taken)| *byte = taken);
        }
    }
    wrong
}

/// Later bytes of the taxonomy are those that were lent for the survivors.
fn later_taken(case: &Case, right: &Outcome) -> Outcome {
    taken(case, right, [usize::MAX, TABLE_BYTES])
}

/// Later bytes of the survivors are those that were lent for the taxonomy.
fn later_survivors_taken(case: &Case, right: &Outcome) -> Outcome {
    taken(case, right, [WRITTEN, usize::MAX])
}

/// 26 is asked before 12.
fn order_26_12(case: &Case, right: &Outcome) -> Outcome {
    let [_, taxonomy] = too_few(case);
    refused(right, refusal(right) == 12 && taxonomy, 26, 0)
}

/// 12 is asked before 11.
fn order_12_11(case: &Case, right: &Outcome) -> Outcome {
    let [survivors, _] = too_few(case);
    refused(right, refusal(right) == 11 && survivors, 12, 0)
}

/// 26 is asked before 11.
fn order_26_11(case: &Case, right: &Outcome) -> Outcome {
    let [_, taxonomy] = too_few(case);
    refused(right, refusal(right) == 11 && taxonomy, 26, 0)
}

/// 11 counts the names alone; what it answers in its place with enough bytes lent is left open.
fn names_counted(case: &Case, right: &Outcome) -> Outcome {
    let passes = refusal(right) == 11 && count(case) <= MOST_ATOMS;
    let open = Classified {
        survivors: Set::new(),
        rounds: 0,
        table: [0; TABLE_BYTES],
    };
    match too_few(case) {
        _ if !passes => right.clone(),
        [true, _] => refused(right, true, 12, 0),
        [_, true] => refused(right, true, 26, 0),
        _ => Outcome {
            answer: Ok(open),
            ..right.clone()
        },
    }
}

/// What the right call does, where 26 is passed with so few bytes lent: as much of the table is written as there is
/// room for.
fn passed(case: &Case, right: &Outcome, least: usize) -> Outcome {
    let [_, lent] = case.lent;
    if refusal(right) != 26 || usize::from(lent) < least {
        return right.clone();
    }
    let mut wrong = with_enough(case);
    wrong.buffers[1].truncate(usize::from(lent));
    wrong
}

/// 26 asks only for as many bytes as the names take.
fn few_asked(case: &Case, right: &Outcome) -> Outcome {
    passed(case, right, count(case).pow(2))
}

/// 26 asks for 143 bytes.
fn one_less_asked(case: &Case, right: &Outcome) -> Outcome {
    passed(case, right, TABLE_BYTES - 1)
}

/// 26 asks for 145 bytes.
fn one_more_asked(case: &Case, right: &Outcome) -> Outcome {
    let [_, lent] = case.lent;
    let applies = right.answer.is_ok() && usize::from(lent) == TABLE_BYTES;
    Outcome {
        buffers: if applies { case.buffers() } else { right.buffers.clone() },
        ..refused(right, applies, 26, 0)
    }
}

/// 26 says as its place how many bytes are lent.
fn place_of_26(case: &Case, right: &Outcome) -> Outcome {
    let [_, lent] = case.lent.map(usize::from);
    refused(right, refusal(right) == 26, 26, lent)
}
