//! The replay against the library, and the text of a trace.
#![allow(clippy::unwrap_used, clippy::expect_used, clippy::panic, clippy::indexing_slicing)]

use super::{agreed, run, Shown};
use crate::files::Name;
use crate::input::Input;
use crate::script::Entry;
use crate::stored::script_cases;
use crate::text::names::Names;
use crate::text::vocabulary::Written;
use crate::text::{Assembled, Kind, Line};
use crate::{script, text};
use base::vocabulary::Vocabulary;
use base::{Failure, Status};
use judge::{check_script, Refusal, Rule};
use std::collections::BTreeMap;

/// A script of these bytes; `lines` are those of its text, if it has one.
fn input(script: &[u8], lines: Vec<Line>) -> Input {
    let assembled = Assembled {
        kind: Kind::Script,
        bytes: script.to_vec(),
        lines,
        names: Names::default(),
    };
    Input::assembled(&Name::new("s.script".as_ref()), None, assembled)
}

/// The trace of bytes without words.
fn of(vocabulary: &[u8], script: &[u8], verdict: Result<u32, Refusal>) -> Result<Option<Shown>, Failure> {
    let vocabulary = Written::new(Vocabulary::read(vocabulary));
    super::of(&vocabulary, &input(script, Vec::new()), verdict)
}

/// The trace of texts, with their words and lines.
fn in_words(vocabulary: &str, script: &str) -> Shown {
    let (vocabulary, script) = (text::assemble(vocabulary).unwrap(), text::assemble(script).unwrap());
    let verdict = check_script(&vocabulary.bytes, &script.bytes);
    let comments = vocabulary.lines.into_iter().map(|line| line.comment).collect();
    let written = Written::new(Vocabulary::read(&vocabulary.bytes)).with_words(comments);
    super::of(&written, &input(&script.bytes, script.lines), verdict)
        .expect("agreement")
        .expect("a trace")
}

/// The records of a script, as they are replayed.
fn merged(script: &[u8]) -> Vec<script::Words> {
    script::merged(&script::read(script))
}

/// The bytes of a text.
fn assembled(text: &str) -> Vec<u8> {
    text::assemble(text).expect("a text").bytes
}

/// The trace of a script on which the library gives this verdict: (0, steps), or number and place.
fn shown(vocabulary: &str, script: &str, verdict: (u8, u32)) -> Shown {
    let (vocabulary, script) = (assembled(vocabulary), assembled(script));
    let given = check_script(&vocabulary, &script);
    let in_numbers = given.map_or_else(|refusal| (refusal.rule.number(), refusal.place), |steps| (0, steps));
    assert_eq!(in_numbers, verdict);
    of(&vocabulary, &script, given).expect("agreement").expect("a trace")
}

/// The line that says why a script is refused.
fn why(vocabulary: &str, script: &str, verdict: (u8, u32)) -> String {
    let text = shown(vocabulary, script, verdict).text;
    let last = text.lines().last().expect("a line").trim_start();
    last.strip_prefix(&format!("refused, {}: ", verdict.0))
        .unwrap_or_else(|| panic!("{last}"))
        .to_string()
}

const V: &str = "vocabulary roles 0\nc1\nc2\nc3\nObjectIntersectionOf(c1 c2)\nSubClassOf(#4 c3)\n";
const BOTTOM: &str = "vocabulary roles 1\nowl:Nothing\nObjectSomeValuesFrom(r0 owl:Nothing)\n";
/// A statement that holds always: each extension by it opens a frame like the one below.
const LOOP: &str = "vocabulary roles 0\nc1\nSubClassOf(c1 c1)\n";

#[test]
fn the_replay_agrees_with_the_library_on_every_case() {
    let cases = script_cases();
    let mut replayed: BTreeMap<u8, usize> = BTreeMap::new();
    for (i, (vocabulary, script)) in cases.iter().enumerate() {
        let verdict = check_script(vocabulary, script);
        let number = verdict.map_or_else(|refusal| refusal.rule.number(), |_| 0);
        let keeps_form = verdict.map_or_else(|refusal| refusal.rule.is_of_chain(), |_| true);
        if keeps_form {
            let trace = run::replay(&Vocabulary::read(vocabulary), &merged(script));
            assert!(trace.agrees(verdict), "case {i}: {:?}, {verdict:?}", trace.answer());
            *replayed.entry(number).or_default() += 1;
        }
        let shown = of(vocabulary, script, verdict).unwrap_or_else(|_| panic!("case {i}"));
        assert_eq!(shown.is_some(), keeps_form, "case {i}");
    }
    let expected = [
        (0, 747),
        (20, 247),
        (21, 1060),
        (22, 1006),
        (23, 32),
        (24, 499),
        (25, 143),
    ];
    assert_eq!(replayed, BTreeMap::from(expected));
}

#[test]
fn a_trace_has_every_step_and_a_reason_where_it_is_refused() {
    for (i, (vocabulary, script)) in script_cases().iter().enumerate() {
        let verdict = check_script(vocabulary, script);
        let Some(shown) = of(vocabulary, script, verdict).expect("agreement") else {
            continue;
        };
        let steps = run::replay(&Vocabulary::read(vocabulary), &merged(script)).steps;
        let headings = shown.text.lines().filter(|line| line.starts_with("step "));
        assert_eq!(headings.count(), steps.len(), "case {i}");
        assert_eq!(
            shown.text.matches("  refused, ").count(),
            usize::from(verdict.is_err()),
            "case {i}"
        );
        assert_eq!(
            shown.json.to_string().matches("\"refused\":true").count(),
            usize::from(verdict.is_err())
        );
    }
}

#[test]
fn a_replay_that_differs_is_an_error_in_desk() {
    let (vocabulary, script) = (assembled(V), assembled("script #4 within #3\na\nstart 1\n"));
    let trace = run::replay(&Vocabulary::read(&vocabulary), &merged(&script));
    let refusal = |number, place| {
        Err(Refusal {
            rule: Rule::of(number),
            place,
        })
    };
    assert!(agreed(&trace, refusal(24, 2)).is_ok());
    for verdict in [refusal(24, 3), refusal(21, 2), Ok(1)] {
        assert_eq!(
            agreed(&trace, verdict).expect_err("no agreement").status,
            Status::Defect
        );
    }
    let failure = of(&vocabulary, &script, Ok(3)).err().expect("no agreement");
    assert_eq!(
        failure.message,
        "an error in desk: the trace comes to 'refused, 24, at script record 2', \
         and the library says 'accepted, 3 steps'"
    );
}

#[test]
fn a_script_without_form_has_no_trace() {
    let (vocabulary, script) = (assembled(V), assembled("script #4 within #3\na\nstart 2\n"));
    let verdict = check_script(&vocabulary, &script);
    assert_eq!(verdict.expect_err("18").rule.number(), 18);
    assert!(of(&vocabulary, &script, verdict).expect("no trace").is_none());
}

#[test]
fn sample_7() {
    let script =
        "script #4 within #3\na\nstart 1\nextend owner 5 column 0 x a at 1\nextend owner 0 column 0 x a at 0\n";
    let expected = "\
query: term 4, ObjectIntersectionOf(c1 c2), within term 3, c3
step 1, record 2: start with query column 1
  column {C3(a)}
> frame 0: C3(a)
step 2, record 3: extend by owner 5, SubClassOf(ObjectIntersectionOf(c1 c2) c3), column 0, x = a
  goal C3(a), against ¬C3(a) at position 1 of {C4(a), ¬C3(a)}
  frame 0: C3(a)
> frame 1: C4(a)
step 3, record 4: extend by owner 0, the query, column 0, x = a
  goal C4(a), against ¬C4(a) at position 0 of {¬C4(a)}
  all is closed
";
    assert_eq!(shown(V, script, (0, 3)).text, expected);
}

#[test]
fn sample_8() {
    let script = "script #4 within #3\na\nstart 1\nextend owner 5 column 0 x a at 1\n";
    let shown = shown(V, script, (24, 3));
    let expected = "\
query: term 4, ObjectIntersectionOf(c1 c2), within term 3, c3
step 1, record 2: start with query column 1
  column {C3(a)}
> frame 0: C3(a)
step 2, record 3: extend by owner 5, SubClassOf(ObjectIntersectionOf(c1 c2) c3), column 0, x = a
  goal C3(a), against ¬C3(a) at position 1 of {C4(a), ¬C3(a)}
  frame 0: C3(a)
> frame 1: C4(a)
  refused, 24: the chain ends with 2 frames left; still to be closed: C4(a)
";
    assert_eq!(shown.text, expected);
    let expected = concat!(
        r#"[{"step":1,"record":2,"line":null,"rule":"start","goal":null,"goal_words":null,"#,
        r#""owner":0,"column":1,"x":null,"y":null,"position":null,"frame":null,"against":null,"literals":["C3(a)"],"frames":[["C3(a)"]]},"#,
        r#"{"step":2,"record":3,"line":null,"rule":"extend","goal":"C3(a)","goal_words":null,"#,
        r#""owner":5,"column":0,"x":"a","y":null,"position":1,"frame":null,"against":"¬C3(a)","literals":["C4(a)","¬C3(a)"],"frames":[["C3(a)"],["C4(a)"]],"#,
        r#""refused":true,"why":"the chain ends with 2 frames left; still to be closed: C4(a)"}]"#,
    );
    assert_eq!(shown.json.to_string(), expected);
}

#[test]
fn sample_9() {
    let script = "script #2 within #1\na\nstart 0\nextend owner 2 column 1 x a at 0\nf2(a)\n";
    let accepted = format!("{script}extend owner 1 column 0 x f2(a) at 0\n");
    let expected = "\
query: term 2, ObjectSomeValuesFrom(r0 owl:Nothing), within term 1, owl:Nothing
step 1, record 2: start with query column 0
  column {¬C2(a)}
> frame 0: ¬C2(a)
step 2, record 3: extend by owner 2, ObjectSomeValuesFrom(r0 owl:Nothing), column 1, x = a
  goal ¬C2(a), against C2(a) at position 0 of {C2(a), ¬C1(f2(a))}
  frame 0: ¬C2(a)
> frame 1: ¬C1(f2(a))
step 3, record 5: extend by owner 1, owl:Nothing, column 0, x = f2(a)
  goal ¬C1(f2(a)), against C1(f2(a)) at position 0 of {C1(f2(a))}
  all is closed
";
    assert_eq!(shown(BOTTOM, &accepted, (0, 3)).text, expected);
}

#[test]
fn sample_9_with_the_constant_last() {
    let script =
        "script #2 within #1\na\nstart 0\nextend owner 2 column 1 x a at 0\nextend owner 1 column 0 x a at 0\n";
    let expected = "\
query: term 2, ObjectSomeValuesFrom(r0 owl:Nothing), within term 1, owl:Nothing
step 1, record 2: start with query column 0
  column {¬C2(a)}
> frame 0: ¬C2(a)
step 2, record 3: extend by owner 2, ObjectSomeValuesFrom(r0 owl:Nothing), column 1, x = a
  goal ¬C2(a), against C2(a) at position 0 of {C2(a), ¬C1(f2(a))}
  frame 0: ¬C2(a)
> frame 1: ¬C1(f2(a))
step 3, record 4: extend by owner 1, owl:Nothing, column 0, x = a
  goal ¬C1(f2(a)), against C1(a) at position 0 of {C1(a)}
  frame 0: ¬C2(a)
> frame 1: ¬C1(f2(a))
  refused, 21: C1(a) at the position is not the complement of the goal ¬C1(f2(a)): its terms are (a), the goal's (f2(a))
";
    assert_eq!(shown(BOTTOM, script, (21, 4)).text, expected);
}

#[test]
fn refusal_20_in_words() {
    let no_step = shown(V, "script #4 within #3\na\noff start 1\n", (20, 0));
    assert_eq!(
        no_step.text,
        "query: term 4, ObjectIntersectionOf(c1 c2), within term 3, c3\n  \
         refused, 20: the chain has no step; the first has to be a start\n"
    );
    let json = no_step.json.to_string();
    assert!(
        json.starts_with(r#"[{"step":0,"record":0,"line":null,"rule":null,"#),
        "{json}"
    );
    assert!(
        json.contains(r#""frames":[],"refused":true,"why":"the chain has no step"#),
        "{json}"
    );
    let no_start = "script #4 within #3\na\nreduce 0\n";
    let expected = "the first step of the chain has to be a start";
    assert_eq!(why(V, no_start, (20, 2)), expected);
    assert!(shown(V, no_start, (20, 2)).text.contains("\n  no frame is open\n"));
    let later = why(V, "script #4 within #3\na\nstart 1\nstart 1\n", (20, 3));
    assert_eq!(later, "step 1 is the start, and a chain has one start only");
}

#[test]
fn refusal_21_in_words() {
    let extended = |extension: &str| format!("script #4 within #3\na\nstart 1\nextend owner {extension}\n");
    assert_eq!(
        why(V, &extended("4 column 0 x a at 1"), (21, 3)),
        "¬C1(a) at the position is not the complement of the goal C3(a): its predicate is C1, the goal's C3"
    );
    assert_eq!(
        why(V, &extended("0 column 1 x a at 0"), (21, 3)),
        "C3(a) at the position is not the complement of the goal C3(a): their signs are the same"
    );
}

/// Functions of two records, of whose terms the script has neither.
#[test]
fn terms_without_a_record_differ_by_their_function() {
    let vocabulary = "vocabulary roles 1\nc1\nObjectSomeValuesFrom(r0 c1)\nObjectAllValuesFrom(r0 c1)\n";
    let script =
        "script #2 within #3\na\nstart 0\nextend owner 2 column 1 x a at 0\nextend owner 3 column 1 x a at 1\n";
    assert_eq!(
        why(vocabulary, script, (21, 4)),
        "C1(f3(a)) at the position is not the complement of the goal ¬C1(f2(a)): its terms are (f3(a)), the goal's (f2(a))"
    );
}

#[test]
fn refusal_22_in_words() {
    let script = "script #4 within #3\na\nstart 1\nextend owner 5 column 0 x a at 1\nreduce ";
    let below = shown(V, &format!("{script}0\n"), (22, 4)).text;
    let expected = "\
step 3, record 4: reduce with frame 0
  goal C4(a), against C3(a), the goal of frame 0
  frame 0: C3(a)
> frame 1: C4(a)
  refused, 22: C3(a), the goal of that frame, is not the complement of the goal C4(a): its predicate is C3, the goal's C4
";
    assert!(below.ends_with(expected), "{below}");
    let last = why(V, &format!("{script}1\n"), (22, 4));
    assert_eq!(last, "frame 1 is the last, and a reduction needs a frame below it");
    let none = why(V, &format!("{script}65535\n"), (22, 4));
    assert_eq!(none, "there is no frame 65535; the last is frame 1");
}

#[test]
fn refusal_23_in_words() {
    let full = format!(
        "script #1 within #1\na\nstart 1\n{}",
        "extend owner 2 column 0 x a at 1\n".repeat(63)
    );
    assert_eq!(
        why(LOOP, &full, (24, 65)),
        "the chain ends with 64 frames left; still to be closed: C1(a)"
    );
    let over = full + "extend owner 2 column 0 x a at 1\n";
    assert_eq!(
        why(LOOP, &over, (23, 66)),
        "64 frames are open, and {C1(a)} would be one more"
    );
}

#[test]
fn refusal_24_lists_what_is_left_in_the_order_of_goals() {
    let vocabulary = "vocabulary roles 0\nc1\nc2\nc3\nObjectIntersectionOf(c1 c2)\nObjectIntersectionOf(#4 c3)\n";
    let script =
        "script #5 within #5\na\nstart 1\nextend owner 5 column 2 x a at 0\nextend owner 4 column 2 x a at 0\n";
    assert_eq!(
        why(vocabulary, script, (24, 4)),
        "the chain ends with 3 frames left; still to be closed: C1(a), C2(a), C3(a)"
    );
}

#[test]
fn refusal_25_in_words() {
    let script = "script #1 within #1\na\nstart 1\nextend owner 0 column 0 x a at 0\nreduce 7\n";
    assert_eq!(
        why(LOOP, script, (25, 4)),
        "all was closed by step 2, and no step may follow"
    );
    assert!(shown(LOOP, script, (25, 4))
        .text
        .contains("reduce with frame 7\n  all is closed\n"));
}

#[test]
fn of_many_frames_the_last_are_listed() {
    let script = format!(
        "script #1 within #1\na\nstart 1\n{}",
        "extend owner 2 column 0 x a at 1\n".repeat(10)
    );
    let text = shown(LOOP, &script, (24, 12)).text;
    let of_step = |number| {
        text.split("\nstep ")
            .nth(number)
            .expect("a step")
            .lines()
            .skip(2)
            .collect::<Vec<_>>()
    };
    assert_eq!(of_step(9).len(), 9);
    assert_eq!(of_step(10)[..2], ["  frames 0 to 1: as before", "  frame 2: C1(a)"]);
    assert_eq!(of_step(10).last(), Some(&"> frame 9: C1(a)"));
    assert_eq!(of_step(10).len(), 9);
    // The last step is refused: eleven frames and the reason.
    assert_eq!(of_step(11).len(), 12);
}

#[test]
fn roles_and_reductions_are_written_out() {
    let vocabulary = "vocabulary roles 1\nc1\nObjectSomeValuesFrom(r0 c1)\n";
    let script = "script #2 within #2\na\nf2(a)\nstart 1\nextend owner 2 column 2 x a y f2(a) at 0\n\
                  extend owner 2 column 0 x a at 1\nextend owner 0 column 0 x a at 0\n\
                  extend owner 2 column 1 x a at 1\nextend owner 2 column 2 x a y f2(a) at 0\nreduce 1\n";
    let text = shown(vocabulary, script, (22, 9)).text;
    for line in [
        "extend by owner 2, ObjectSomeValuesFrom(r0 c1), column 2, x = a, y = f2(a)",
        "  goal C2(a), against ¬C2(a) at position 0 of {¬C2(a), r0(a,f2(a)), C1(f2(a))}",
        "  goal r0(a,f2(a)), against ¬r0(a,f2(a)) at position 1 of {C2(a), ¬r0(a,f2(a))}",
        "  goal r0(a,f2(a)), against C1(f2(a)), the goal of frame 1",
    ] {
        assert!(text.contains(line), "{line}\n{text}");
    }
}

#[test]
fn a_long_term_is_named_by_its_record() {
    let mut script = "script #2 within #2\na\n".to_string();
    for inner in 1..=15 {
        script.push_str(&format!("f2(#{inner})\n"));
    }
    // Records 2 to 15 have up to 57 characters, record 16 would have 61.
    script.push_str("start 1\nextend owner 2 column 1 x #15 at 0\n");
    let named = shown(BOTTOM, &script, (21, 18)).text;
    let long = format!("{}a{}", "f2(".repeat(14), ")".repeat(14));
    assert!(named.contains(&format!("{{C2({long}), ¬C1(#16)}}")), "{named}");
    let without = script.replace("f2(#15)\n", "");
    let named = shown(BOTTOM, &without, (21, 17)).text;
    assert!(named.contains(&format!("{{C2({long}), ¬C1(f2(#15))}}")), "{named}");
}

/// Restrictions of each sort, one of them nested, with what goals at their functions' terms can be connected to.
const NESTED: &str = "vocabulary roles 1
owl:Nothing
ObjectSomeValuesFrom(r0 owl:Nothing)
ObjectSomeValuesFrom(r0 #2)
c1
ObjectComplementOf(c1)
ObjectUnionOf(#4 #5)
ObjectAllValuesFrom(r0 #6)
owl:Thing
ObjectAllValuesFrom(r0 c1)
SubClassOf(#9 #5)
";

#[test]
fn a_term_is_the_same_under_each_of_its_records() {
    // Record 4 says f2(f3(a)) by the inner record 3, and step 3 leaves the same term by the inner record 2.
    let script = "script #3 within #1\na\nf3(a)\nf3(a)\nf2(#3)\nf2(#2)\nstart 0\nextend owner 3 column 1 x a at 0\n\
                  extend owner 2 column 1 x #2 at 0\nextend owner 1 column 0 x ";
    let expected = "\
query: term 3, ObjectSomeValuesFrom(r0 ObjectSomeValuesFrom(r0 owl:Nothing)), within term 1, owl:Nothing
step 1, record 6: start with query column 0
  column {¬C3(a)}
> frame 0: ¬C3(a)
step 2, record 7: extend by owner 3, ObjectSomeValuesFrom(r0 ObjectSomeValuesFrom(r0 owl:Nothing)), column 1, x = a
  goal ¬C3(a), against C3(a) at position 0 of {C3(a), ¬C2(f3(a))}
  frame 0: ¬C3(a)
> frame 1: ¬C2(f3(a))
step 3, record 8: extend by owner 2, ObjectSomeValuesFrom(r0 owl:Nothing), column 1, x = f3(a)
  goal ¬C2(f3(a)), against C2(f3(a)) at position 0 of {C2(f3(a)), ¬C1(f2(f3(a)))}
  frame 0: ¬C3(a)
  frame 1: ¬C2(f3(a))
> frame 2: ¬C1(f2(f3(a)))
step 4, record 9: extend by owner 1, owl:Nothing, column 0, x = f2(f3(a))
  goal ¬C1(f2(f3(a))), against C1(f2(f3(a))) at position 0 of {C1(f2(f3(a)))}
  all is closed
";
    for record in ["#4", "#5"] {
        for inner in ["x #2", "x #3"] {
            let script = format!("{}{record} at 0\n", script.replace("x #2", inner));
            assert_eq!(shown(NESTED, &script, (0, 4)).text, expected, "{record}, {inner}");
        }
    }
    let refused = format!("{script}#3 at 0\n");
    assert_eq!(
        why(NESTED, &refused, (21, 9)),
        "C1(f3(a)) at the position is not the complement of the goal ¬C1(f2(f3(a))): \
         its terms are (f3(a)), the goal's (f2(f3(a)))"
    );
}

#[test]
fn a_reduction_compares_terms_written_out() {
    // Everything lies within "all r0 to c1 or not c1": each step has a record of f7(a) of its own.
    let script = "script #8 within #7\na\nf7(a)\nf7(a)\nf7(a)\nstart 1\nextend owner 7 column 1 x a at 0\n\
                  extend owner 6 column 0 x #2 at 0\nextend owner 5 column 1 x #3 at 1\n\
                  extend owner 6 column 1 x #4 at 1\nreduce ";
    let text = shown(NESTED, &format!("{script}1\n"), (0, 6)).text;
    let line = "\n  goal ¬C6(f7(a)), against C6(f7(a)), the goal of frame 1\n  all is closed\n";
    assert!(text.ends_with(line), "{text}");
    // The frame named has C5(a), the goal is ¬C5(f9(a)) by the second record of f9(a).
    let script = "script #8 within #5\na\nf9(a)\nf9(a)\nstart 1\nextend owner 10 column 0 x a at 1\n\
                  extend owner 9 column 1 x a at 0\nextend owner 5 column 1 x #3 at 1\nreduce 0\n";
    assert_eq!(
        why(NESTED, script, (22, 8)),
        "C5(a), the goal of that frame, is not the complement of the goal ¬C5(f9(a)): its terms are (a), the goal's (f9(a))"
    );
}

/// A script with each of its function terms under one to three records, whose inner terms are any records of theirs, and
/// each step naming any of them; with the new number of each record.
fn with_repeats(script: &[script::Words], mut random: impl FnMut(usize) -> usize) -> (Vec<script::Words>, Vec<u16>) {
    let (mut repeated, mut places): (Vec<script::Words>, Vec<Vec<u16>>) = (Vec::new(), Vec::new());
    for words in script {
        let entry = Entry::read(*words);
        let copies = match entry {
            Some(Entry::Function(..)) => 1 + random(3),
            _ => 1,
        };
        let mut numbers = Vec::new();
        for _ in 0..copies {
            let choice = random(1 << 16);
            let of = |term: u16| match places.get(usize::from(term)) {
                Some(all) => all[choice % all.len()],
                None => term,
            };
            numbers.push(repeated.len() as u16);
            repeated.push(entry.map_or(*words, |entry| entry.with_terms(of).words(words[7])));
        }
        places.push(numbers);
    }
    let moved: Vec<u16> = places.into_iter().map(|numbers| numbers[0]).collect();
    for (number, words) in repeated.iter_mut().enumerate() {
        let link = if number == 0 { 3 } else { 7 };
        words[link] = moved[usize::from(words[link])];
    }
    (repeated, moved)
}

/// What a trace says, but for the numbers of records.
fn without_records(shown: &Shown) -> Vec<&str> {
    let lines = shown.text.lines();
    lines
        .filter(|line| !line.starts_with("step ") && !line.contains('#'))
        .collect()
}

#[test]
fn repeats_change_neither_verdict_nor_trace() {
    let mut seed = 0x51f3_u32;
    let mut random = |bound: usize| {
        seed = seed.wrapping_mul(1_664_525).wrapping_add(1_013_904_223);
        (seed >> 8) as usize % bound
    };
    let mut with = 0;
    for (i, (vocabulary, script)) in script_cases().iter().enumerate() {
        let verdict = check_script(vocabulary, script);
        let Some(shown) = of(vocabulary, script, verdict).expect("agreement") else {
            continue;
        };
        let records = script::read(script);
        let (repeated, moved) = with_repeats(&records, &mut random);
        if repeated.len() == records.len() || repeated.len() > judge::SCRIPT_RECORDS {
            continue;
        }
        with += 1;
        let bytes: Vec<u8> = repeated.iter().flat_map(script::bytes).collect();
        let expected = verdict.map_err(|refusal| Refusal {
            place: moved[refusal.place as usize].into(),
            ..refusal
        });
        assert_eq!(check_script(vocabulary, &bytes), expected, "case {i}");
        let again = of(vocabulary, &bytes, expected).expect("agreement").expect("a trace");
        assert_eq!(without_records(&again), without_records(&shown), "case {i}");
    }
    assert!(with > 300, "{with}");
}

#[test]
fn a_long_term_is_named_by_its_first_record() {
    // Records 3 and 4 are f2(a), 5 and 6 are f2(f2(a)), up to 31 and 32; each inner term is the second of its two.
    let mut script = "script #2 within #2\na\noff start 0\nf2(a)\nf2(a)\n".to_string();
    for inner in 2..=15 {
        script.push_str(&format!("f2(#{0})\nf2(#{0})\n", 2 * inner));
    }
    script.push_str("start 1\nextend owner 2 column 1 x #30 at 0\n");
    let named = shown(BOTTOM, &script, (21, 34)).text;
    let long = format!("{}a{}", "f2(".repeat(14), ")".repeat(14));
    assert!(named.contains(&format!("{{C2({long}), ¬C1(#31)}}")), "{named}");
    assert!(named.contains(&format!("x = {long}\n")), "{named}");
    let over = script.replace("x #30", "x #32");
    let named = shown(BOTTOM, &over, (21, 34)).text;
    assert!(
        named.contains("x = #31\n") && named.contains("{C2(#31), ¬C1(f2(#31))}"),
        "{named}"
    );
}

/// A vocabulary with a some restriction and an all restriction, each of whose records but 4 is called something.
const WORDS: &str = "vocabulary roles 1
c1 -- cat
ObjectSomeValuesFrom(r0 c1) -- cat owner
ObjectAllValuesFrom(r0 c1) -- has cats only
owl:Nothing
SubClassOf(#2 #3) -- who has a cat has cats only
";

#[test]
fn goals_are_said_in_words() {
    let script = "-- a comment\nscript #2 within #3\na\n\nstart 1\nextend owner 5 column 0 x a at 1\n\
                  extend owner 0 column 0 x a at 0\n";
    let expected = "\
query: term 2, ObjectSomeValuesFrom(r0 c1) (cat owner), within term 3, ObjectAllValuesFrom(r0 c1) (has cats only)
step 1, record 2 (line 5): start with query column 1
  column {C3(a)}
> frame 0: C3(a)
step 2, record 3 (line 6): extend by owner 5, SubClassOf(ObjectSomeValuesFrom(r0 c1) ObjectAllValuesFrom(r0 c1)) \
(who has a cat has cats only), column 0, x = a
  goal C3(a), against ¬C3(a) at position 1 of {C2(a), ¬C3(a)}
  in words: a is in term 3, ObjectAllValuesFrom(r0 c1) (has cats only)
  frame 0: C3(a)
> frame 1: C2(a)
step 3, record 4 (line 7): extend by owner 0, the query, column 0, x = a
  goal C2(a), against ¬C2(a) at position 0 of {¬C2(a)}
  in words: a is in term 2, ObjectSomeValuesFrom(r0 c1) (cat owner)
  all is closed
";
    let shown = in_words(WORDS, script);
    assert_eq!(shown.text, expected);
    let json = shown.json.to_string();
    assert!(json.contains(r#"{"step":1,"record":2,"line":5,"rule":"start","goal":null,"goal_words":null,"#));
    let second =
        r#"{"step":2,"record":3,"line":6,"rule":"extend","goal":"C3(a)","goal_words":"a is in term 3, ObjectAll"#;
    assert!(json.contains(second), "{json}");
}

#[test]
fn roles_and_functions_are_said_in_words() {
    // Column 2 of record 2, with y = f3(a), leaves the goals r0(a,f3(a)) and C1(f3(a)).
    let script = "script #2 within #2\na\nf3(a)\nf2(f3(a))\nstart 1\nextend owner 2 column 2 x a y f3(a) at 0\n";
    let pair = in_words(WORDS, &format!("{script}extend owner 3 column 0 x a at 1\n")).text;
    let line = "\n  in words: the pair (a, f3(a)) is in role 0; \
                f3(a) is the counterexample to term 3, ObjectAllValuesFrom(r0 c1) (has cats only), at a\n";
    assert!(pair.contains(line), "{pair}");
    // The start with column 0 leaves ¬C2(a), and column 1 of record 2 then ¬C1(f2(a)), of which no record is.
    let script =
        "script #2 within #2\na\nstart 0\nextend owner 2 column 1 x a at 0\nextend owner 4 column 0 x a at 0\n";
    let negative = in_words(WORDS, script).text;
    let line = "\n  in words: a is not in term 2, ObjectSomeValuesFrom(r0 c1) (cat owner)\n";
    assert!(negative.contains(line), "{negative}");
    let line = "\n  in words: f2(a) is not in term 1, c1 (cat); \
                f2(a) is the witness of term 2, ObjectSomeValuesFrom(r0 c1) (cat owner), at a\n";
    assert!(negative.contains(line), "{negative}");
}

#[test]
fn without_words_only_the_lines_are_added() {
    let script = "script #4 within #3\na\nstart 1\nextend owner 5 column 0 x a at 1\n";
    let plain = shown(V, script, (24, 3)).text;
    let header_only = V.replacen('\n', " -- a vocabulary\n", 1);
    for vocabulary in [V, &header_only] {
        let with_lines = in_words(vocabulary, script).text;
        let without = with_lines.replace(" (line 3)", "").replace(" (line 4)", "");
        assert_eq!(without, plain);
        assert_ne!(with_lines, plain);
    }
}
