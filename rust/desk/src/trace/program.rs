//! A trace as programs read it.

use super::run::{Goal, Step, Trace};
use super::words::Words;
use crate::json::Json;
use crate::script::Entry;

/// What stands for a step where the chain has none.
const NO_STEP: Step = Step {
    record: 0,
    entry: Entry::Constant,
    goal: None,
    column: Vec::new(),
    against: None,
    frames: Vec::new(),
};

/// An object for each step; one numbered 0 if there is none.
pub fn trace(words: &Words, trace: &Trace) -> Json {
    let numbered = trace.steps.iter().enumerate();
    let mut objects: Vec<Vec<(&'static str, Json)>> = numbered.map(|(i, at)| step(words, i + 1, at)).collect();
    if let Some(why) = trace.refused {
        if objects.is_empty() {
            objects.push(step(words, 0, &NO_STEP));
        }
        if let Some(object) = objects.last_mut() {
            object.extend([
                ("refused", Json::from(true)),
                ("why", Json::from(words.why(trace, why))),
            ]);
        }
    }
    Json::list(objects.into_iter().map(Json::Object))
}

fn step(words: &Words, number: usize, step: &Step) -> Vec<(&'static str, Json)> {
    let text = |literal: Goal| words.literal(literal);
    let mut object = vec![
        ("step", Json::from(number)),
        ("record", Json::from(step.record)),
        ("line", Json::from(words.line(step).filter(|_| number > 0))),
        ("rule", Json::from(rule(step.entry))),
        ("goal", Json::from(step.goal.map(text))),
        ("goal_words", Json::from(words.goal_words(step))),
    ];
    object.extend(fields(words, step.entry));
    object.extend([
        ("against", Json::from(step.against.map(text))),
        ("literals", Json::list(words.literals(&step.column))),
        (
            "frames",
            Json::list(step.frames.iter().map(|frame| Json::list(words.literals(frame)))),
        ),
    ]);
    object
}

fn rule(entry: Entry) -> Option<&'static str> {
    match entry {
        Entry::Start(_) => Some("start"),
        Entry::Extend(_) => Some("extend"),
        Entry::Reduce(_) => Some("reduce"),
        Entry::Constant | Entry::Function(..) => None,
    }
}

/// What the step's record names, null where its rule has no such word.
fn fields(words: &Words, entry: Entry) -> [(&'static str, Json); 6] {
    let ([owner, column, position, frame], terms) = match entry {
        Entry::Start(column) => ([Some(0), Some(column), None, None], [0, 0]),
        Entry::Extend(e) => ([Some(e.owner), Some(e.column), Some(e.position), None], [e.x, e.y]),
        Entry::Reduce(frame) => ([None, None, None, Some(frame)], [0, 0]),
        Entry::Constant | Entry::Function(..) => ([None; 4], [0, 0]),
    };
    let [x, y] = terms.map(|term| Some(term).filter(|term| *term > 0).map(|term| words.script.named(term)));
    [
        ("owner", Json::from(owner)),
        ("column", Json::from(column)),
        ("x", Json::from(x)),
        ("y", Json::from(y)),
        ("position", Json::from(position)),
        ("frame", Json::from(frame)),
    ]
}
