//! Refusals of inputs, with what is known of the input.

use crate::cause;
use crate::finding::{Finding, Ground, Spot};
use crate::input::Input;
use crate::json::Json;
use crate::report::{refusal_json, refusal_status, Report, Style};
use judge::{Place, Refusal, Rule};

/// A refusal in words, with what is known of the input that it is about, and a reason in detail where there is one.
pub fn words(input: &Input, refusal: Refusal, detail: Option<&str>) -> String {
    format!("{refusal}{}", known(input, refusal, detail))
}

/// What goes behind the words of a refusal: what is known of the input, and the reason in detail.
fn known(input: &Input, refusal: Refusal, detail: Option<&str>) -> String {
    let detail = in_detail(input, refusal, detail);
    let detail = detail.map(|detail| format!("; {detail}")).unwrap_or_default();
    format!("{}{detail}", input.hint(refusal))
}

/// The same as editors show it.
fn finding(input: &Input, place: Option<(usize, usize)>, refusal: Refusal, detail: Option<&str>) -> Finding {
    let known = known(input, refusal, detail);
    let spot = match (Spot::of_line(place.or_else(|| input.line_of(0))), refusal.rule) {
        (Spot::Whole, Rule::Header | Rule::AtomCount) => Spot::Record(0),
        (Spot::Whole, rule) if rule.place() == Place::Record => Spot::Record(refusal.place),
        (spot, _) => spot,
    };
    Finding {
        ground: Ground::Refused(refusal.rule),
        spot,
        message: format!("{}{known}", refusal.rule.words()),
    }
}

/// The detail that is given; else what the input alone shows: of 14 it is a script, of 9 and of what the vocabulary check
/// refuses a vocabulary. None is needed where the input is hinted at as another.
fn in_detail(input: &Input, refusal: Refusal, detail: Option<&str>) -> Option<String> {
    match (detail, refusal.rule) {
        _ if !input.hint(refusal).is_empty() => None,
        (Some(detail), _) => Some(detail.to_string()),
        (None, Rule::ScriptHeader) => cause::detail(&[], &input.bytes, refusal),
        (None, rule) if rule.is_of_vocabulary() || rule == Rule::RecordNumber => {
            cause::vocabulary_detail(&input.bytes, refusal)
        }
        _ => None,
    }
}

/// The same as programs read it.
pub fn detail_json(input: &Input, refusal: Refusal, detail: Option<&str>) -> Option<(&'static str, Json)> {
    in_detail(input, refusal, detail).map(|detail| ("detail", Json::from(detail)))
}

/// The refusal of an input, at its line where it was a text.
pub fn report(style: Style, input: &Input, refusal: Refusal, detail: Option<&str>) -> Report {
    at(style, input, input.place_of(refusal), refusal, detail)
}

/// The refusal of a vocabulary, or of a number that was asked about in it (10).
pub fn of_vocabulary(style: Style, input: &Input, refusal: Refusal) -> Report {
    let detail = cause::vocabulary_detail(&input.bytes, refusal);
    report(style, input, refusal, detail.as_deref())
}

/// The refusal of an input, at a given line and column of its text.
pub fn at(
    style: Style,
    input: &Input,
    place: Option<(usize, usize)>,
    refusal: Refusal,
    detail: Option<&str>,
) -> Report {
    let status = refusal_status(refusal);
    let words = words(input, refusal, detail);
    let finding = finding(input, place, refusal, detail);
    let detail = detail_json(input, refusal, detail);
    let painted = words.replacen("refused", &style.paint(status, "refused"), 1);
    let text = format!("{}: {painted}\n", input.at(place));
    let mut json = vec![
        ("file", Json::from(input.name.as_str())),
        ("verdict", Json::from("refused")),
        ("refusal", refusal_json(refusal)),
    ];
    if let Some((line, column)) = place {
        json.extend([("line", Json::from(line)), ("column", Json::from(column))]);
    }
    json.extend(detail);
    Report {
        findings: vec![finding],
        ..Report::new(status, text, json)
    }
}
