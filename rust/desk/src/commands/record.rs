//! `desk record`.

use super::read_vocabulary;
use crate::console::Console;
use crate::input::Input;
use crate::json::Json;
use crate::refused;
use crate::report::{Report, Stop};
use crate::term;
use crate::text::vocabulary::Written;
use base::arguments::Arguments;
use base::vocabulary::{Record, Vocabulary};
use base::Status;

pub fn run(arguments: &Arguments, console: &mut Console) -> Result<Status, Stop> {
    let [path, word] = arguments.words(["VOCABULARY", "N"])?;
    let input = read_vocabulary(path, console.style)?;
    let number = term::existing(console.style, &input, word, "N")?;
    let report = match judge::record(&input.bytes, number) {
        Err(refusal) => refused::report(console.style, &input, refusal, None),
        Ok(part) => found(&input, number, part),
    };
    Ok(console.answer(report)?)
}

fn found(input: &Input, number: u32, part: &[u8]) -> Report {
    let Record {
        kind,
        second,
        a,
        b,
        next,
    } = Record::read(part);
    let written = Written::new(Vocabulary::read(&input.bytes)).with_names(input.names.clone());
    let (line, called) = if number == 0 {
        (written.header(), written.header())
    } else {
        (written.line(number as usize), written.called_line(number as u16))
    };
    let hexadecimal: Vec<String> = part.iter().map(|byte| format!("{byte:02x}")).collect();
    let bytes = hexadecimal.join(" ");
    let text =
        format!("{number}: {called}\nkind {kind}, second byte {second}, A {a}, B {b}, next {next}\nbytes {bytes}\n");
    let mut json = vec![
        ("file", Json::from(input.name.as_str())),
        ("verdict", Json::from("found")),
        ("number", Json::from(number)),
    ];
    json.extend(written.name_field(number as u16));
    json.extend([
        ("text", Json::from(line)),
        ("kind", Json::from(u32::from(kind))),
        ("second", Json::from(u32::from(second))),
        ("a", Json::from(a)),
        ("b", Json::from(b)),
        ("next", Json::from(next)),
        ("bytes", Json::from(bytes)),
    ]);
    Report::new(Status::Holds, text, json)
}
