//! `desk edition`.

use crate::console::Console;
use crate::display::counted;
use crate::files;
use crate::input;
use crate::json::Json;
use crate::refused;
use crate::report::{Report, Stop, Style};
use base::arguments::{digits, Arguments};
use base::{Failure, Status};
use judge::Edition;
use std::ffi::OsStr;

pub fn run(arguments: &Arguments, console: &mut Console) -> Result<Status, Stop> {
    let [path, number] = arguments.words(["FILE", "EDITION"])?;
    let wanted = asked(number)?;
    // The file is open until it is replaced, so that no other run changes it meanwhile.
    let (input, _opened) =
        input::vocabulary_to_change(path, "its header says the edition, as 'vocabulary roles 1 edition 2'")?;
    let style = console.style;
    let refused = |refusal| refused::of_vocabulary(style, &input, refusal);
    let changes = judge::edition(&input.bytes).map_err(refused)? != wanted;
    let mut bytes = input.bytes.clone();
    if changes {
        judge::set_edition(&mut bytes, wanted).map_err(refused)?;
        input.replace(path, &bytes)?;
    }
    let outcome = Outcome {
        edition: wanted,
        changes,
        records: bytes.len() / judge::RECORD_BYTES,
        atoms: judge::atoms(&bytes).map_err(refused)?,
    };
    Ok(console.answer(outcome.report(style, &input.name))?)
}

/// The edition that is asked for.
fn asked(word: &OsStr) -> Result<Edition, Failure> {
    let word = word.to_string_lossy();
    let number = digits(&word).and_then(|number| u8::try_from(number).ok());
    let edition = number.and_then(Edition::of);
    edition.ok_or_else(|| Failure::usage(format!("EDITION is 1 or 2, and '{word}' is neither")))
}

/// What came of it.
struct Outcome {
    edition: Edition,
    /// Whether the file had the other edition.
    changes: bool,
    records: usize,
    atoms: u16,
}

impl Outcome {
    fn report(&self, style: Style, name: &files::Name) -> Report {
        let edition = self.edition.number();
        let counts = format!(
            "a vocabulary of {}, {}",
            counted(self.records as u64, "record"),
            counted(self.atoms.into(), "atom")
        );
        let (verdict, text) = if self.changes {
            let word = style.paint(Status::Holds, "converted");
            ("converted", format!("{name}: {word} to edition {edition}; {counts}\n"))
        } else {
            let word = style.paint(Status::Holds, "unchanged");
            (
                "unchanged",
                format!("{name}: {word}, edition {edition} already; {counts}\n"),
            )
        };
        let json = vec![
            ("file", Json::from(name.as_str())),
            ("verdict", Json::from(verdict)),
            ("edition", Json::from(u32::from(edition))),
            ("records", Json::from(self.records)),
            ("atoms", Json::from(self.atoms)),
        ];
        Report::new(Status::Holds, text, json)
    }
}
