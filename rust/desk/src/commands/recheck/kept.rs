//! The vocabularies that lines name. Each worker keeps those that it used last, since lines of one vocabulary mostly
//! follow one another.
//!
//! A file is read when a worker first needs it, and again when it was not among the last ones. Where a file changes
//! during the run, each line is judged by what was read of it before or after the change, and which of the two is left
//! open; a file that is written over while it is read may be seen in part. What is noted of a file is of the bytes by which
//! the line was judged.

use crate::beside;
use crate::files::{Access, Digest, FileId};
use crate::input::{self, Input};
use crate::question::Questions;
use crate::report::{Stop, Style};
use crate::term::{self, Asked, Refused};
use crate::text::vocabulary::Written;
use crate::text::Kind;
use base::vocabulary::Vocabulary;
use base::Status;
use std::ffi::OsString;
use std::path::{Path, PathBuf};
use std::sync::Arc;

/// How many vocabularies are kept.
const KEPT: usize = 16;

/// Why a file gives no vocabulary or script.
#[derive(Clone, Debug)]
pub struct Trouble {
    /// The exit status that it asks for.
    pub status: Status,
    /// The reason.
    pub why: String,
}

impl From<Stop> for Trouble {
    fn from(stop: Stop) -> Trouble {
        match stop {
            Stop::Failure(failure) => Trouble {
                status: failure.status,
                why: failure.message,
            },
            Stop::Answer(report) => Trouble {
                status: report.status,
                why: report.text,
            },
        }
    }
}

/// A file as it was read.
#[derive(Debug)]
pub struct Seen {
    /// Its name, as the table has it.
    pub name: String,
    /// What it is to be.
    pub what: &'static str,
    /// Which file it is, if it is a regular one.
    pub id: Option<FileId>,
    /// Its bytes, where it can be read.
    pub digest: Option<Digest>,
}

/// What came of a file, and what is noted of it, and of the names beside it, if something is to be.
pub type Noted<T> = (Vec<Arc<Seen>>, Result<T, Trouble>);

/// Where files are looked for, and what is known of them beside.
#[derive(Clone)]
pub struct Files {
    /// The directory of the table.
    pub directory: PathBuf,
    /// Whether it is noted what was read.
    pub notes: bool,
    /// The text whose comments say what records are called.
    pub words: Option<Arc<Input>>,
}

impl Files {
    /// Reads a vocabulary.
    fn vocabulary(&self, file: &str) -> Noted<Known> {
        let (seen, input) = self.read(file, Kind::Vocabulary);
        (seen, input.map(|input| self.known(input)))
    }

    /// A vocabulary that is read, with its words.
    pub fn known(&self, mut input: Input) -> Known {
        let same = self.words.as_deref().filter(|words| input.is_said_by(words));
        let words = same.unwrap_or(&input).comments();
        input.take_names(same);
        Known::new(input, words)
    }

    /// Reads a script.
    pub fn script(&self, file: &str) -> Noted<Input> {
        self.read(file, Kind::Script)
    }

    fn read(&self, file: &str, kind: Kind) -> Noted<Input> {
        let (path, style) = (self.path(file), Style { colour: false });
        let source = input::source(&path, Access::Regular, kind);
        let mut seen = Vec::new();
        if self.notes {
            let read = source.as_ref().ok();
            seen.push(Arc::new(Seen {
                name: file.to_string(),
                what: kind.word(),
                id: read.and_then(|source| source.id),
                digest: read.map(|source| source.digest()),
            }));
        }
        let input = source.map_err(Stop::from);
        let input = input.and_then(|source| input::from(source, &path, Access::Regular, kind, style));
        let beside = input.as_ref().ok().and_then(|input| input.beside.as_ref());
        seen.extend(beside.filter(|_| self.notes).map(|beside| {
            Arc::new(Seen {
                name: beside::path_of(file.as_ref()).to_string_lossy().into_owned(),
                what: "names",
                id: beside.id,
                digest: Some(beside.digest()),
            })
        }));
        (seen, input.map_err(Trouble::from))
    }

    /// The path of a file that the table names.
    pub fn path(&self, file: &str) -> OsString {
        let path = self.directory.join(file);
        // So that messages do not call it standard input.
        if path == Path::new("-") {
            return "./-".into();
        }
        path.into_os_string()
    }
}

/// A vocabulary, with what was found out about it.
pub struct Known {
    /// The vocabulary.
    pub input: Input,
    words: Option<Vec<String>>,
    written: Option<Written>,
    /// What is asked about it.
    pub questions: Questions,
}

impl Known {
    fn new(input: Input, words: Option<Vec<String>>) -> Known {
        Known {
            questions: Questions::new(&input.bytes),
            input,
            words,
            written: None,
        }
    }

    /// A copy with the terms that were asked about and that no record says, where there are some.
    pub fn extended(&self, asked: &Asked) -> Result<Option<Known>, Refused> {
        if asked.added.is_empty() {
            return Ok(None);
        }
        let mut input = self.input.copy();
        term::extend(&mut input, asked)?;
        Ok(Some(Known::new(input, self.words.clone())))
    }

    /// A term as a reason names it: by its number, or written out where it has none but for the question.
    pub fn called(&mut self, number: u32) -> String {
        let is_given = self.input.given().len() / judge::RECORD_BYTES > number as usize;
        match u16::try_from(number) {
            Ok(number) if !is_given => self.written().called(number),
            _ => format!("term {number}"),
        }
    }

    /// Whether no interpretation satisfies the statements; false where that cannot be asked.
    pub fn is_contradictory(&mut self) -> bool {
        self.questions.is_contradictory().unwrap_or(false)
    }

    /// Whether nothing can belong to a term; false where that cannot be asked.
    pub fn is_empty(&mut self, term: u32) -> bool {
        self.questions.is_empty(term) == Ok(Some(true))
    }

    /// The vocabulary written out, with the words for its records where there are some.
    pub fn written(&mut self) -> &Written {
        let (input, words) = (&self.input, &self.words);
        self.written.get_or_insert_with(|| {
            let written = Written::new(Vocabulary::read(&input.bytes));
            let written = written.of_given(input.given()).with_names(input.names.clone());
            match words {
                Some(words) => written.with_words(words.clone()),
                None => written,
            }
        })
    }
}

/// The vocabularies used last, the last first. A file that cannot be read is kept as such.
pub struct Kept {
    /// Where they are read from.
    pub files: Files,
    last: Vec<(String, Noted<Known>)>,
}

impl Kept {
    /// None yet.
    pub fn new(files: Files) -> Kept {
        Kept {
            files,
            last: Vec::new(),
        }
    }

    /// What was noted of the vocabulary that was used last.
    pub fn seen(&self) -> Vec<Arc<Seen>> {
        let last = self.last.first();
        last.map(|(_, (seen, _))| seen.clone()).unwrap_or_default()
    }

    /// The vocabulary of a file.
    pub fn vocabulary(&mut self, file: &str) -> Result<&mut Known, Trouble> {
        match self.last.iter().position(|(name, _)| name == file) {
            Some(0) => {}
            Some(at) => {
                let found = self.last.remove(at);
                self.last.insert(0, found);
            }
            None => {
                self.last.truncate(KEPT - 1);
                self.last.insert(0, (file.to_string(), self.files.vocabulary(file)));
            }
        }
        match self.last.first_mut() {
            Some((_, (_, Ok(known)))) => Ok(known),
            Some((_, (_, Err(trouble)))) => Err(trouble.clone()),
            None => Err(Trouble {
                status: Status::Defect,
                why: "no vocabulary is kept".to_string(),
            }),
        }
    }
}
