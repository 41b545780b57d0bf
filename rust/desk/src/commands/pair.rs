//! What came of a question about two terms, for people and for programs.

use super::{files_of, read_vocabulary, read_words, written};
use crate::display::counted;
use crate::explain::Explained;
use crate::files::FileId;
use crate::input::Input;
use crate::json::Json;
use crate::question::Questions;
use crate::report::{Report, Stop, Style};
use crate::term::{self, Pair};
use crate::text::vocabulary::Written;
use base::arguments::Arguments;
use base::{Failure, Status};
use judge::{Comparison, Refusal, Verdict, SURVIVOR_BYTES};

/// How an answer is worded, for people and for programs.
pub struct Wording {
    /// Where the comparison says Equal.
    pub holds: [&'static str; 2],
    /// Where it says Different.
    pub fails: [&'static str; 2],
}

/// What the command line asks about: a vocabulary, with the text that has its words, and two terms.
pub struct Subject {
    /// The vocabulary, with the terms that are added for the question.
    pub input: Input,
    /// The text of `--words`.
    pub words: Option<Input>,
    /// The terms.
    pub pair: Pair,
}

impl Subject {
    /// Reads what the words and `--words` name.
    pub fn read(arguments: &Arguments, style: Style) -> Result<Subject, Stop> {
        let [path, a, b] = arguments.words(["VOCABULARY", "A", "B"])?;
        let mut input = read_vocabulary(path, style)?;
        let words = read_words(arguments, style)?;
        input.take_names(words.as_ref());
        let pair = term::pair(style, &mut input, [a, b])?;
        Ok(Subject { input, words, pair })
    }

    /// The answer, with what the questions have left.
    pub fn answered(
        &self,
        (answer, empty): (Comparison, Emptiness),
        questions: &Questions,
    ) -> Result<Answered, Failure> {
        Ok(Answered {
            written: written(&self.input, self.words.as_ref())?,
            pair: self.pair,
            answer,
            survivors: *questions.survivors(),
            empty,
        })
    }

    /// The files that were read, which are not written over.
    pub fn files(&self) -> Vec<Option<FileId>> {
        files_of([Some(&self.input), self.words.as_ref()])
    }
}

/// An answer about two terms.
pub struct Answered {
    /// The vocabulary.
    pub written: Written,
    /// The terms.
    pub pair: Pair,
    /// What the comparison said.
    pub answer: Comparison,
    /// What it wrote.
    pub survivors: [u8; SURVIVOR_BYTES],
    /// Whether nothing can belong to the terms.
    pub empty: Emptiness,
}

impl Answered {
    /// The report on a vocabulary, with the element that tells the terms apart, where one does.
    pub fn report(&self, style: Style, input: &Input, wording: &Wording, explained: Option<&Explained>) -> Report {
        let (status, [word, verdict]) = match self.answer.verdict {
            Verdict::Equal => (Status::Holds, wording.holds),
            Verdict::Different { .. } => (Status::DoesNotHold, wording.fails),
        };
        let mut text = format!("{}: {}; {}", input.name, style.paint(status, word), self.heading());
        let mut json = vec![
            ("file", Json::from(input.name.as_str())),
            ("verdict", Json::from(verdict)),
        ];
        json.extend(self.heading_json());
        json.extend(self.empty.json());
        json.extend(self.added_json());
        if let Some(explained) = explained {
            json.extend(explained.json());
            text.push_str(&explained.text());
        }
        text.push_str(&self.empty.text(self.answer.verdict));
        Report::new(status, text, json)
    }

    /// The element that tells the terms apart, where one does.
    pub fn explained(&self) -> Result<Option<Explained<'_>>, Failure> {
        match self.answer.verdict {
            Verdict::Equal => Ok(None),
            Verdict::Different { element } => {
                Explained::new(&self.written, self.pair, element, &self.survivors).map(Some)
            }
        }
    }

    /// The counts, and the terms.
    fn heading(&self) -> String {
        let survivors = counted(self.answer.survivors.into(), "survivor");
        let rounds = counted(self.answer.rounds.into(), "round");
        let [a, b] = self.pair.map(|number| self.written.term(number as u16));
        format!("{survivors}, {rounds}\n  A: {a}\n  B: {b}\n")
    }

    /// The terms that were added for the question, where some were, for programs.
    fn added_json(&self) -> Option<(&'static str, Json)> {
        let added: Vec<Json> = self
            .written
            .added()
            .map(|number| self.written.term_json(number))
            .collect();
        (!added.is_empty()).then(|| ("added", Json::list(added)))
    }

    /// The same for programs.
    fn heading_json(&self) -> [(&'static str, Json); 4] {
        let [a, b] = self.pair.map(|number| self.written.term_json(number as u16));
        [
            ("a", a),
            ("b", b),
            ("survivors", Json::from(self.answer.survivors)),
            ("rounds", Json::from(self.answer.rounds)),
        ]
    }
}

/// Whether nothing can belong to the terms that were compared.
#[derive(Clone, Copy)]
pub struct Emptiness {
    /// Whether the statements contradict each other.
    pub contradictory: bool,
    /// Of A and of B; nothing where there was no room to ask.
    pub terms: [Option<bool>; 2],
}

impl Emptiness {
    /// Asks about the terms of a comparison.
    pub fn ask(questions: &mut Questions, [a, b]: Pair, answer: Comparison) -> Result<Emptiness, Refusal> {
        let contradictory = answer.survivors == 0;
        let terms = if contradictory {
            [Some(true); 2]
        } else {
            [questions.is_empty(a)?, questions.is_empty(b)?]
        };
        Ok(Emptiness { contradictory, terms })
    }

    /// A line that says what is empty; none where nothing is.
    pub fn text(self, verdict: Verdict) -> String {
        let words = match self.terms {
            _ if self.contradictory => {
                "the statements contradict each other: nothing satisfies them, so that all terms are equal"
            }
            [Some(true), Some(true)] => "nothing can belong to either term, whatever satisfies the statements",
            [Some(true), _] => "nothing can belong to A, whatever satisfies the statements",
            [_, Some(true)] => "nothing can belong to B, whatever satisfies the statements",
            [None, _] if verdict == Verdict::Equal => {
                "whether anything can belong to them was not asked: there is no room for a record of owl:Nothing"
            }
            _ => return String::new(),
        };
        format!("{words}\n")
    }

    /// What programs read.
    pub fn json(self) -> [(&'static str, Json); 2] {
        let [a, b] = self.terms.map(Json::from);
        [
            ("contradictory", Json::from(self.contradictory)),
            ("empty", Json::object([("a", a), ("b", b)])),
        ]
    }
}
