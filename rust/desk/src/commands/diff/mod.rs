//! `desk diff`.

mod changes;
mod lines;
mod ranges;
mod records;
mod renamed;
mod table;
mod taxonomy;
mod terms;
#[cfg(test)]
mod tests;

use super::{read_vocabulary, written};
use crate::console::Console;
use crate::input::Input;
use crate::refused;
use crate::report::{Stop, Style};
use base::arguments::Arguments;
use base::{Failure, Status};
use changes::Changes;
use records::{Shapes, Side};
use std::ffi::OsStr;

pub fn run(arguments: &Arguments, console: &mut Console) -> Result<Status, Stop> {
    let ([old, new], table) = words(arguments)?;
    let mut shapes = Shapes::default();
    let (old, old_side) = read(old, &mut shapes, console.style)?;
    let (new, new_side) = read(new, &mut shapes, console.style)?;
    let renamed = renamed::find([&old, &new], &old_side, &new_side);
    let changes = Changes::find(&old_side, &new_side, renamed);
    let status = console.answer(changes.report(console.style, [&old.name, &new.name]))?;
    match table {
        None => Ok(status),
        Some(table) => {
            let of_table = table::tell(table, [old, new], ([&old_side, &new_side], shapes), console)?;
            Ok(status.max(of_table))
        }
    }
}

/// OLD and NEW, and TABLE where it is given.
fn words(arguments: &Arguments) -> Result<([&OsStr; 2], Option<&OsStr>), Failure> {
    if arguments.all().len() < 3 {
        return Ok((arguments.words(["OLD", "NEW"])?, None));
    }
    let [old, new, table] = arguments.words(["OLD", "NEW", "TABLE"])?;
    Ok(([old, new], Some(table)))
}

/// A vocabulary that is accepted, and what its records say.
fn read(path: &OsStr, shapes: &mut Shapes, style: Style) -> Result<(Input, Side), Stop> {
    let input = read_vocabulary(path, style)?;
    judge::check_vocabulary(&input.bytes).map_err(|refusal| refused::of_vocabulary(style, &input, refusal))?;
    let side = shapes.side(written(&input, None)?);
    Ok((input, side))
}
