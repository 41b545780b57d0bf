//! The drawings of a counter-model that an answer about two terms may be asked for.

use super::{apart, output};
use crate::drawing::{dot, svg};
use crate::explain::Explained;
use crate::files::{self, FileId, Name};
use crate::json::Json;
use crate::report::Report;
use base::arguments::{Arguments, Flag};
use base::Failure;
use std::ffi::OsStr;

/// The option for Graphviz.
pub const DOT: Flag = Flag::valued("--dot");
/// The option for browsers.
pub const SVG: Flag = Flag::valued("--svg");

/// The files that are to be drawn.
pub struct Pictures<'a> {
    dot: Option<&'a OsStr>,
    svg: Option<&'a OsStr>,
}

impl<'a> Pictures<'a> {
    /// Those that the command line names.
    pub fn wanted(arguments: &'a Arguments) -> Result<Pictures<'a>, Failure> {
        apart(arguments, &[DOT, SVG])?;
        Ok(Pictures {
            dot: output(arguments, DOT)?,
            svg: output(arguments, SVG)?,
        })
    }

    /// Draws what tells the terms apart, each file whole or not at all, and never over an input. Where nothing does, the
    /// files stay as they are, and the report says so.
    pub fn draw(
        &self,
        explained: Option<&Explained>,
        inputs: &[Option<FileId>],
        report: &mut Report,
    ) -> Result<(), Failure> {
        let graph = explained.map(Explained::graph);
        let mut drawn = Vec::new();
        for (path, draw) in [(self.dot, dot::draw as fn(&_) -> _), (self.svg, svg::file)] {
            let Some(path) = path else { continue };
            match &graph {
                Some(graph) => {
                    files::write(path, draw(graph).as_bytes(), inputs)?;
                    drawn.push(Name::new(path).as_str().to_string());
                }
                None => report.aside.push_str(&format!(
                    "{} is not written: there is no difference to draw\n",
                    Name::new(path)
                )),
            }
        }
        if self.dot.or(self.svg).is_some() {
            report.json.push(("drawn", Json::list(drawn)));
        }
        Ok(())
    }
}
