//! The reasoners' input: OWL 2 functional syntax for Konclude, a TBox of LISP-like forms for FaCT++.
//!
//! Each compound term is a named class, defined once, so that the text stays linear in the records; or, where a
//! reasoner has no answer to that, each is written out wherever it stands.

use std::collections::{BTreeMap, BTreeSet};
use std::fmt::Write;

use base::vocabulary::{Saying, Vocabulary};

use crate::taxonomy;

#[cfg(test)]
mod tests;

/// A reasoner's language.
#[derive(Clone, Copy, Debug, PartialEq, Eq)]
pub enum Language {
    /// OWL 2 functional syntax.
    Konclude,
    /// The forms that the FaCT++ program reads.
    Fact,
}

use Language::{Fact, Konclude};

/// How compound terms stand in a document.
#[derive(Clone, Copy, Debug, PartialEq, Eq)]
pub enum Form {
    /// By a name that is defined once.
    Named,
    /// In full; the text may grow with each use.
    WrittenOut,
}

/// The most bytes that a term written out may have.
const LONGEST: usize = 1 << 20;

/// What the names of the functional syntax begin with.
pub const PREFIX: &str = "http://vocabulary.example/#";

/// The chained statements, the terms that they and the query need, and a class Q of the elements that are in just one
/// of `a` and `b`: the two are equal exactly when Q is not satisfiable. Nothing where a term written out is too long.
pub fn query(language: Language, form: Form, vocabulary: &Vocabulary, a: u16, b: u16) -> Option<String> {
    let mut roots = vec![a, b];
    roots.extend(vocabulary.statements().into_iter().flat_map(|(a, b)| [a, b]));
    let terms = Terms::new(language, form, vocabulary, &needed(vocabulary, &roots))?;
    let question = definition(language, "Q", &apart(language, terms.of(a), terms.of(b)));
    Some(document(language, vocabulary, &terms, &question))
}

/// The chained statements and all terms as named classes, for a classification.
pub fn table(language: Language, vocabulary: &Vocabulary) -> String {
    let all = vocabulary.terms().into_iter().collect();
    let terms = Terms::new(language, Form::Named, vocabulary, &all);
    terms.map_or_else(String::new, |terms| document(language, vocabulary, &terms, ""))
}

/// The chained statements, with their terms in the form given, and all names: for a classification of the names.
/// Nothing where a term written out is too long.
pub fn names(language: Language, form: Form, vocabulary: &Vocabulary) -> Option<String> {
    let mut roots = taxonomy::names(vocabulary);
    roots.extend(vocabulary.statements().into_iter().flat_map(|(a, b)| [a, b]));
    let terms = Terms::new(language, form, vocabulary, &needed(vocabulary, &roots))?;
    Some(document(language, vocabulary, &terms, ""))
}

/// The options that FaCT++ takes: the TBox's file, and the class to ask about; without one it classifies.
pub fn fact_options(tbox: &str, target: Option<&str>) -> String {
    let target = target.map_or_else(String::new, |target| format!("Target = {target}\n"));
    format!("[LeveLogger]\nfile = reasoning.log\nallowedLevel = 0\n[Tuning]\n[Query]\nTBox = {tbox}\n{target}")
}

/// The terms that the roots are made of, themselves included.
fn needed(vocabulary: &Vocabulary, roots: &[u16]) -> BTreeSet<u16> {
    let mut found: BTreeSet<u16> = roots.iter().copied().collect();
    let mut left = roots.to_vec();
    while let Some(number) = left.pop() {
        let saying = vocabulary.get(number.into()).saying();
        let operands = saying.map_or_else(Vec::new, Saying::operands);
        left.extend(operands.into_iter().filter(|operand| found.insert(*operand)));
    }
    found
}

/// The terms of a document.
struct Terms {
    /// How each stands where it is used.
    texts: BTreeMap<u16, String>,
    /// What those say that have a class of their own.
    classes: Vec<(u16, Saying)>,
    /// What all say.
    sayings: Vec<(u16, Saying)>,
}

impl Terms {
    fn new(language: Language, form: Form, vocabulary: &Vocabulary, numbers: &BTreeSet<u16>) -> Option<Terms> {
        let sayings: Vec<(u16, Saying)> = vocabulary
            .sayings()
            .filter(|(number, _)| numbers.contains(number))
            .collect();
        let mut terms = Terms {
            texts: BTreeMap::new(),
            classes: Vec::new(),
            sayings: sayings.clone(),
        };
        for (number, saying) in sayings {
            let written = expression(language, saying, &terms).filter(|_| form == Form::WrittenOut);
            if written.is_none() {
                terms.classes.push((number, saying));
            }
            let text = written.unwrap_or_else(|| class(language, number));
            if text.len() > LONGEST {
                return None;
            }
            terms.texts.insert(number, text);
        }
        Some(terms)
    }

    fn of(&self, number: u16) -> &str {
        self.texts.get(&number).map_or("", String::as_str)
    }
}

fn document(language: Language, vocabulary: &Vocabulary, terms: &Terms, question: &str) -> String {
    let mut text = String::new();
    for (number, saying) in &terms.classes {
        if language == Konclude || matches!(saying, Saying::Name(_)) {
            text += &declaration(language, &class(language, *number));
        }
    }
    text += &roles(language, &terms.sayings);
    for (number, saying) in &terms.classes {
        if let Some(meaning) = expression(language, *saying, terms) {
            text += &definition(language, &class_name(*number), &meaning);
        }
    }
    for (a, b) in vocabulary.statements() {
        text += &inclusion(language, terms.of(a), terms.of(b));
    }
    framed(language, &(text + question))
}

/// What stands around a document.
fn framed(language: Language, text: &str) -> String {
    match language {
        Fact => text.to_owned(),
        Konclude => format!(
            "Prefix(:=<{PREFIX}>)\nPrefix(owl:=<http://www.w3.org/2002/07/owl#>)\n\
             Ontology(<http://vocabulary.example/>\n{text})\n"
        ),
    }
}

fn class(language: Language, number: u16) -> String {
    match language {
        Konclude => format!(":{}", class_name(number)),
        Fact => class_name(number),
    }
}

/// The name of a term's class, without what stands before it.
pub fn class_name(number: u16) -> String {
    format!("T{number}")
}

fn role(language: Language, number: u16) -> String {
    match language {
        Konclude => format!(":R{number}"),
        Fact => format!("R{number}"),
    }
}

fn declaration(language: Language, class: &str) -> String {
    match language {
        Konclude => format!("Declaration(Class({class}))\n"),
        Fact => format!("(defprimconcept {class})\n"),
    }
}

/// The declarations of the roles that the terms use.
fn roles(language: Language, sayings: &[(u16, Saying)]) -> String {
    let used: BTreeSet<u16> = sayings
        .iter()
        .filter_map(|(_, saying)| match saying {
            Saying::Some(role, _) | Saying::All(role, _) => Some(*role),
            _ => None,
        })
        .collect();
    let mut text = String::new();
    for number in used {
        let role = role(language, number);
        let _ = match language {
            Konclude => writeln!(text, "Declaration(ObjectProperty({role}))"),
            Fact => writeln!(text, "(defprimrole {role})"),
        };
    }
    text
}

fn definition(language: Language, name: &str, meaning: &str) -> String {
    match language {
        Konclude if name == "Q" => format!("Declaration(Class(:Q))\nEquivalentClasses(:Q {meaning})\n"),
        Konclude => format!("EquivalentClasses(:{name} {meaning})\n"),
        Fact => format!("(equal_c {name} {meaning})\n"),
    }
}

fn inclusion(language: Language, a: &str, b: &str) -> String {
    match language {
        Konclude => format!("SubClassOf({a} {b})\n"),
        Fact => format!("(implies_c {a} {b})\n"),
    }
}

/// What a term is made of; nothing for a name, which is primitive, and for a statement.
fn expression(language: Language, saying: Saying, terms: &Terms) -> Option<String> {
    let (top, bottom, some, all) = match language {
        Konclude => (
            "owl:Thing",
            "owl:Nothing",
            "ObjectSomeValuesFrom",
            "ObjectAllValuesFrom",
        ),
        Fact => ("*TOP*", "*BOTTOM*", "some", "all"),
    };
    let role = |number| role(language, number);
    Some(match saying {
        Saying::Top => top.to_owned(),
        Saying::Bottom => bottom.to_owned(),
        Saying::Not(a) => not(language, terms.of(a)),
        Saying::And(a, b) => joined(language, true, terms.of(a), terms.of(b)),
        Saying::Or(a, b) => joined(language, false, terms.of(a), terms.of(b)),
        Saying::Some(r, b) => applied(language, some, &[&role(r), terms.of(b)]),
        Saying::All(r, b) => applied(language, all, &[&role(r), terms.of(b)]),
        Saying::Name(_) | Saying::Within(..) => return None,
    })
}

fn not(language: Language, a: &str) -> String {
    match language {
        Konclude => applied(language, "ObjectComplementOf", &[a]),
        Fact => applied(language, "not", &[a]),
    }
}

/// The conjunction or disjunction of two; functional syntax has none of one class with itself.
fn joined(language: Language, both: bool, a: &str, b: &str) -> String {
    let word = match (language, both) {
        (Konclude, true) => "ObjectIntersectionOf",
        (Konclude, false) => "ObjectUnionOf",
        (Fact, true) => "and",
        (Fact, false) => "or",
    };
    if a == b {
        a.to_owned()
    } else {
        applied(language, word, &[a, b])
    }
}

fn applied(language: Language, word: &str, parts: &[&str]) -> String {
    match language {
        Konclude => format!("{word}({})", parts.join(" ")),
        Fact => format!("({word} {})", parts.join(" ")),
    }
}

/// The elements that are in just one of the two.
fn apart(language: Language, a: &str, b: &str) -> String {
    let one_way = joined(language, true, a, &not(language, b));
    let other_way = joined(language, true, b, &not(language, a));
    joined(language, false, &one_way, &other_way)
}
