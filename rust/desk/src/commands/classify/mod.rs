//! `desk classify`.

mod drawing;
mod summary;
mod tree;

use super::pictures::DOT;
use super::{files_of, output, read_vocabulary, read_words, tell, written, WORDS};
use crate::console::Console;
use crate::files::{self, FileId, Name};
use crate::input::Input;
use crate::refused;
use crate::report::{Report, Stop, Style};
use crate::taxonomy::Taxonomy;
use base::arguments::{Arguments, Flag};
use base::{Failure, Status};
use drawing::Drawing;
use std::ffi::OsStr;
use summary::Tally;

/// The options.
pub const FLAGS: &[Flag] = &[WORDS, DOT];

pub fn run(arguments: &Arguments, console: &mut Console) -> Result<Status, Stop> {
    let paths = arguments.some_words("VOCABULARY")?;
    let output = output(arguments, DOT)?;
    let words = read_words(arguments, console.style)?;
    let several = paths.len() > 1;
    let drawing = output.map(|_| Drawing::new(several));
    let mut classifier = Classifier::new(words, several, drawing);
    let mut tally = Tally::new(paths.len());
    for path in paths {
        let answered = classifier.classify(path, console.style);
        tally.add(&answered);
        tally.status = tally.status.max(tell(console, answered)?);
        // A drawing is wanted though nobody reads the answers.
        if console.is_gone() && output.is_none() {
            break;
        }
    }
    let remarks = [
        output
            .filter(|_| !tally.is_whole())
            .map(|path| format!("{} is not written", Name::new(path))),
        classifier.unused().map(|words| format!("{words} is the text of none")),
    ];
    if let Some((path, drawing)) = output.zip(classifier.drawing).filter(|_| tally.is_whole()) {
        files::write(path, drawing.text().as_bytes(), &classifier.inputs)?;
    }
    if several {
        console.answer(tally.report(console.style, remarks.into_iter().flatten()))?;
    }
    Ok(tally.status)
}

/// Classifies vocabularies, and draws what comes of it.
struct Classifier {
    /// The text that --words names.
    words: Option<Input>,
    /// Whether it is the text of some vocabulary so far.
    used: bool,
    /// Whether there are several vocabularies.
    several: bool,
    /// A drawing, where one is wanted: it grows with each vocabulary.
    drawing: Option<Drawing>,
    /// The files that it may not replace.
    inputs: Vec<Option<FileId>>,
}

impl Classifier {
    fn new(words: Option<Input>, several: bool, drawing: Option<Drawing>) -> Classifier {
        Classifier {
            inputs: files_of([words.as_ref()]),
            words,
            used: false,
            several,
            drawing,
        }
    }

    /// The name of the text that --words names, if it is that of no vocabulary so far.
    fn unused(&self) -> Option<&Name> {
        self.words.as_ref().filter(|_| !self.used).map(|words| &words.name)
    }

    fn classify(&mut self, path: &OsStr, style: Style) -> Result<Report, Stop> {
        let input = read_vocabulary(path, style)?;
        let taxonomy = Taxonomy::ask(&input.bytes);
        let taxonomy = taxonomy.map_err(|refusal| refused::of_vocabulary(style, &input, refusal))?;
        if !taxonomy.is_ordered() {
            let message = "the nearest broader names lead in a circle, against what is proved";
            return Err(Failure::new(Status::Defect, message).into());
        }
        // Of several, the text is that of some.
        let is_text = |words: &&Input| !self.several || input.is_said_by(words);
        let words = self.words.as_ref().filter(is_text);
        let written = written(&input, words)?;
        self.used |= words.is_some();
        if let Some(drawing) = &mut self.drawing {
            drawing.add(&input.name, &written, &taxonomy);
            self.inputs.extend(input.files());
        }
        Ok(tree::report(style, &input.name, &written, &taxonomy))
    }
}
