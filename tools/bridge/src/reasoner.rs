//! The reasoners' programs: their files, their commands and their answers.

use std::ffi::{OsStr, OsString};
use std::fs;
use std::path::{Path, PathBuf};
use std::process::{Command, Stdio};

use base::arguments::Arguments;
use base::vocabulary::Vocabulary;
use base::{Failure, Status};

use crate::commands::{FACT, KONCLUDE};
use crate::emit::{self, Form, Language};
use crate::files::{read, write};
use crate::hierarchy::Hierarchy;
use crate::process::Run;
use crate::question::Question;
use crate::taxonomy::Taxonomy;
use Language::{Fact, Konclude};

/// A reasoner's program.
pub struct Reasoner {
    /// The language it reads.
    pub language: Language,
    program: PathBuf,
}

/// What a reasoner says of two terms.
#[derive(Clone, Copy, Debug, PartialEq, Eq)]
pub enum Reply {
    /// They are equal: the class Q is not satisfiable, or the whole is inconsistent.
    Equal,
    /// They are not.
    Different,
    /// Nothing: it was ended at the time limit.
    OutOfTime,
    /// Nothing, though it ended by itself.
    NoAnswer,
}

impl Reasoner {
    /// The reasoner of a language, where its program can be started.
    fn find(language: Language, path: Option<&OsStr>) -> Result<Reasoner, Failure> {
        let (usual, package) = match language {
            Konclude => ("Konclude", "konclude"),
            Fact => ("FaCT++", "fact++"),
        };
        let named = path.unwrap_or(OsStr::new(usual));
        find_program(named)
            .map(|program| Reasoner { language, program })
            .ok_or_else(|| {
                let name = named.to_string_lossy();
                let message = format!("there is no reasoner {name}; the Debian package {package} has it");
                Failure::new(Status::Unavailable, message)
            })
    }

    /// Both reasoners, where the options or the search path have them.
    pub fn both(arguments: &Arguments) -> Result<Vec<Reasoner>, Failure> {
        Ok(vec![
            Reasoner::find(Fact, arguments.value(FACT.name))?,
            Reasoner::find(Konclude, arguments.value(KONCLUDE.name))?,
        ])
    }

    /// Its name.
    pub fn name(&self) -> &'static str {
        match self.language {
            Konclude => "Konclude",
            Fact => "FaCT++",
        }
    }

    /// The command that asks whether the two terms are equal. It runs where its files are, since FaCT++ writes others.
    pub fn query(&self, stem: &Path) -> Command {
        let mut command = self.command(stem);
        match self.language {
            Konclude => command
                .args(["satisfiability", "-w", "2", "-x", &format!("{}Q", emit::PREFIX), "-i"])
                .arg(named(stem, "ofn")),
            Fact => command.arg(named(stem, "options")),
        };
        command
    }

    /// The command that classifies.
    pub fn classify(&self, stem: &Path) -> Command {
        let mut command = self.command(stem);
        match self.language {
            Konclude => command
                .args(["classification", "-w", "2", "-i"])
                .arg(named(stem, "ofn"))
                .arg("-o")
                .arg(named(stem, "classes")),
            Fact => command.arg(named(stem, "options")),
        };
        command
    }

    fn command(&self, stem: &Path) -> Command {
        let mut command = Command::new(&self.program);
        command
            .current_dir(stem.parent().unwrap_or(Path::new(".")))
            .stdin(Stdio::null());
        command
    }

    /// What a query's output says. An inconsistent whole makes all terms equal, and neither reasoner goes on then.
    pub fn reply(&self, run: &Run) -> Reply {
        let (different, equal, inconsistent) = match self.language {
            Konclude => ("answered with 'Yes'", "answered with 'No'", "is inconsistent"),
            Fact => (
                "concept is satisfiable",
                "concept is unsatisfiable",
                "KB is inconsistent",
            ),
        };
        if run.ended {
            Reply::OutOfTime
        } else if run.text.contains(inconsistent) || run.text.contains(equal) {
            Reply::Equal
        } else if run.text.contains(different) {
            Reply::Different
        } else {
            Reply::NoAnswer
        }
    }

    /// The file that a classification writes.
    fn classes(&self, stem: &Path) -> PathBuf {
        match self.language {
            Konclude => stem.with_extension("classes"),
            Fact => stem.with_file_name("Taxonomy.log"),
        }
    }

    /// Removes what an earlier classification wrote.
    pub fn clear(&self, stem: &Path) {
        let _ = fs::remove_file(self.classes(stem));
    }

    /// The names as a classification has them; nothing where it wrote no file, or not of all names.
    pub fn taxonomy(&self, stem: &Path, vocabulary: &Vocabulary) -> Option<Taxonomy> {
        let text = read(&self.classes(stem)).ok()?;
        Taxonomy::classified(vocabulary, &Hierarchy::read(self.language, &text))
    }

    /// The classes that a classification found equal, in groups of term numbers; nothing where it wrote no file.
    pub fn groups(&self, stem: &Path) -> Option<Vec<Vec<u16>>> {
        let text = read(&self.classes(stem)).ok()?;
        let (begin, end, mark) = match self.language {
            Konclude => ("<EquivalentClasses>", "</EquivalentClasses>", "#T"),
            // A line begins with its class, or with all that are equal in parentheses: ("T3"="T7") {..
            Fact => ("\n(", ")", "\"T"),
        };
        let groups = text.split(begin).skip(1).filter_map(|rest| rest.split(end).next());
        Some(groups.map(|group| numbers(group, mark)).collect())
    }
}

/// The path of a program, by itself or on the search path; it runs in other directories than this one. It is not
/// started: `Konclude -h` hung once.
fn find_program(named: &OsStr) -> Option<PathBuf> {
    let paths = std::env::var_os("PATH").unwrap_or_default();
    let found = if named.as_encoded_bytes().contains(&b'/') {
        Some(PathBuf::from(named))
    } else {
        std::env::split_paths(&paths)
            .map(|directory| directory.join(named))
            .find(|path| path.is_file())
    };
    std::path::absolute(found.filter(|path| path.is_file())?).ok()
}

/// Writes the files that ask whether two terms are equal: `stem` and the endings that the language's program wants.
/// False where the text would be too long.
pub fn write_query(language: Language, form: Form, stem: &Path, question: &Question) -> Result<bool, Failure> {
    match emit::query(language, form, &question.vocabulary, question.a, question.b) {
        Some(text) => write_input(language, stem, &text, Some("Q")).map(|()| true),
        None => Ok(false),
    }
}

/// Writes the files of a classification.
pub fn write_table(language: Language, stem: &Path, vocabulary: &Vocabulary) -> Result<(), Failure> {
    write_input(language, stem, &emit::table(language, vocabulary), None)
}

/// Writes the files of a classification of the names: the statements' terms are written out, so that the names are the
/// only classes.
pub fn write_names(language: Language, stem: &Path, vocabulary: &Vocabulary) -> Result<(), Failure> {
    let text = emit::names(language, Form::WrittenOut, vocabulary);
    let too_long = || Failure::new(Status::Refused, "a term written out is too long");
    write_input(language, stem, &text.ok_or_else(too_long)?, None)
}

fn write_input(language: Language, stem: &Path, text: &str, target: Option<&str>) -> Result<(), Failure> {
    match language {
        // With the ending .owl the program tries XML first.
        Konclude => write(&stem.with_extension("ofn"), text),
        Fact => {
            let tbox = stem.with_extension("tbox");
            let name = tbox.file_name().unwrap_or_default().to_string_lossy();
            write(&stem.with_extension("options"), emit::fact_options(&name, target))?;
            write(&tbox, text)
        }
    }
}

/// The file's name after a stem and an ending, without its directory.
fn named(stem: &Path, ending: &str) -> OsString {
    stem.with_extension(ending).file_name().unwrap_or_default().to_owned()
}

/// The numbers that stand after a mark.
fn numbers(text: &str, mark: &str) -> Vec<u16> {
    let digits = |rest: &str| rest.chars().take_while(char::is_ascii_digit).collect::<String>();
    text.split(mark)
        .skip(1)
        .filter_map(|rest| digits(rest).parse().ok())
        .collect()
}
