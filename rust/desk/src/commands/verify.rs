//! `desk verify`.

use super::{read_script, read_vocabulary, read_words, written, WORDS};
use crate::cause;
use crate::console::Console;
use crate::display::counted;
use crate::input::Input;
use crate::json::Json;
use crate::refused;
use crate::report::{Report, Stop, Style};
use crate::script;
use crate::text::vocabulary::Written;
use crate::trace;
use base::arguments::{Arguments, Flag};
use base::Status;
use judge::{Place, Refusal};

/// The options.
pub const FLAGS: &[Flag] = &[WORDS, Flag::switch("--trace")];

pub fn run(arguments: &Arguments, console: &mut Console) -> Result<Status, Stop> {
    let [vocabulary, script] = arguments.words(["VOCABULARY", "SCRIPT"])?;
    let vocabulary = read_vocabulary(vocabulary, console.style)?;
    let script = read_script(script, console.style)?;
    let words = read_words(arguments, console.style)?;
    let written = written(&vocabulary, words.as_ref())?;
    let verdict = judge::check_script(&vocabulary.bytes, &script.bytes);
    let trace = if arguments.has("--trace") {
        trace::of(&written, &script, verdict)?
    } else {
        None
    };
    let mut report = match verdict {
        Ok(steps) => accepted(console.style, &written, &script, steps),
        Err(refusal) if refusal.rule.is_of_vocabulary() => refused::report(console.style, &vocabulary, refusal, None),
        Err(refusal) => refused_script(console.style, &vocabulary, &script, refusal, trace.is_some()),
    };
    if let Some(trace) = trace {
        report.text.insert_str(0, &trace.text);
        report.json.push(("trace", trace.json));
    }
    Ok(console.answer(report)?)
}

/// The refusal of a script, in detail, which a trace has said before. A script does not say for which vocabulary it is;
/// what refers to records of another is refused.
fn refused_script(style: Style, vocabulary: &Input, script: &Input, refusal: Refusal, traced: bool) -> Report {
    let place = match refusal.rule.place() {
        Place::Asked => script.line_of(0),
        _ => script.place_of(refusal),
    };
    let detail = cause::detail(&vocabulary.bytes, &script.bytes, refusal);
    let is_foreign = cause::is_foreign(&vocabulary.bytes, &script.bytes, refusal);
    let question = is_foreign.then_some("is it a script for this vocabulary?");
    let whole = match (&detail, question) {
        (Some(detail), Some(question)) => Some(format!("{detail}; {question}")),
        _ => detail,
    };
    let mut report = refused::at(style, script, place, refusal, whole.as_deref());
    if traced {
        report.text = refused::at(style, script, place, refusal, question).text;
    }
    report
}

fn accepted(style: Style, written: &Written, script: &Input, steps: u32) -> Report {
    let [_, a, b, ..] = script::read(&script.bytes).first().copied().unwrap_or_default();
    let text = format!(
        "{}: {}, {}\n  {}\n  lies within {}\n",
        script.name,
        style.paint(Status::Holds, "accepted"),
        counted(steps.into(), "step"),
        written.term(a),
        written.term(b),
    );
    let json = vec![
        ("file", Json::from(script.name.as_str())),
        ("verdict", Json::from("accepted")),
        ("steps", Json::from(steps)),
        ("a", written.term_json(a)),
        ("b", written.term_json(b)),
    ];
    Report::new(Status::Holds, text, json)
}
