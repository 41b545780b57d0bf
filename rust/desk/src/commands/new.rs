//! `desk new`.

use crate::console::Console;
use crate::display::counted;
use crate::files::{self, Name};
use crate::input::Input;
use crate::json::Json;
use crate::refused;
use crate::report::{Report, Stop};
use base::arguments::{digits, Arguments, Flag};
use base::{Failure, Status};
use judge::Builder;
use std::ffi::OsStr;

/// The options.
pub const FLAGS: &[Flag] = &[Flag::valued("--roles")];

pub fn run(arguments: &Arguments, console: &mut Console) -> Result<Status, Stop> {
    let [path] = arguments.words(["FILE"])?;
    if path == "-" {
        return Err(Failure::usage("FILE is a file to make, and '-' is none").into());
    }
    let roles = roles(arguments)?;
    let made = match Builder::new(roles) {
        Ok(made) => made,
        Err(refusal) => {
            let detail = format!("the number of roles is {roles}, and the most is {}", judge::ROLES);
            let input = Input::absent(Name::new(path));
            return Ok(console.answer(refused::report(console.style, &input, refusal, Some(&detail)))?);
        }
    };
    files::create(path, made.as_bytes())?;
    Ok(console.answer(written(&Name::new(path), roles))?)
}

/// The number of roles, which has to be given: no addition changes it.
fn roles(arguments: &Arguments) -> Result<u32, Failure> {
    let Some(value) = arguments.value("--roles").map(OsStr::to_string_lossy) else {
        return Err(Failure::usage("--roles N is missing"));
    };
    digits(&value).ok_or_else(|| Failure::usage(format!("--roles takes a number, and '{value}' is none")))
}

fn written(name: &Name, roles: u32) -> Report {
    let text = format!("{name}: an empty vocabulary, {}\n", counted(roles.into(), "role"));
    let json = vec![
        ("file", Json::from(name.as_str())),
        ("verdict", Json::from("written")),
        ("kind", Json::from("vocabulary")),
        ("records", Json::from(1_u32)),
        ("roles", Json::from(roles)),
    ];
    Report::new(Status::Holds, text, json)
}
