//! Generated customs vocabularies: goods with their properties, ingredients, countries and consignees, after the model
//! of the two in bench/comparison_questions.c.

use std::fmt::Write;
use std::path::{Path, PathBuf};

use base::arguments::Arguments;
use base::vocabulary::{Saying, Vocabulary};
use base::{Failure, Status};

use crate::commands::{COUNT, SEED};
use crate::emit::{Form, Language};
use crate::files::{create, write};
use crate::making::Making;
use crate::question::{choose, Question, Wanted};
use crate::random::Random;
use crate::reasoner::{write_names, write_query, write_table};

/// The fewest atoms of a customs vocabulary; the most are those that can be compared.
pub const FEWEST_ATOMS: usize = 6;

/// How many pairs the shorter table of a vocabulary has.
pub const PAIRS: usize = 40;

/// The command `customs`.
pub fn run(arguments: &Arguments) -> Result<Status, Failure> {
    let [directory] = arguments.words(["DIRECTORY"])?;
    let (seed, count) = (arguments.number(SEED.name, 1)?, arguments.number(COUNT.name, 21)?);
    write_all(Path::new(directory), seed, count)?;
    Ok(Status::Holds)
}

/// Writes vocabularies of each number of atoms by turns, each with a question, tables of pairs, and the reasoners'
/// files; the file `list` has a line for each: its name and the two terms.
fn write_all(directory: &Path, seed: u64, count: u64) -> Result<(), Failure> {
    let mut random = Random::new(seed);
    let mut list = String::new();
    create(directory)?;
    for (number, atoms) in (0..count).zip((FEWEST_ATOMS..=judge::ATOMS).cycle()) {
        // Equal and different by turns, for each number of atoms.
        let wanted = if number % 2 == 0 {
            Wanted::Equal
        } else {
            Wanted::Different
        };
        let question = question(&mut random, atoms as u16, wanted)?;
        let name = format!("customs{number}");
        write_question(&mut random, &directory.join(&name), &question)?;
        let _ = writeln!(list, "{name} {} {}", question.a, question.b);
    }
    write(&directory.join("list"), list)
}

fn write_question(random: &mut Random, stem: &Path, question: &Question) -> Result<(), Failure> {
    write(&stem.with_extension("vocabulary"), &question.bytes)?;
    let terms = question.vocabulary.terms();
    let some: Vec<(u16, u16)> = (0..PAIRS).map(|_| (random.pick(&terms), random.pick(&terms))).collect();
    let all: Vec<(u16, u16)> = terms
        .iter()
        .flat_map(|a| terms.iter().filter(move |b| a < b).map(|b| (*a, *b)))
        .collect();
    write(&stem.with_extension("some"), lines(&some))?;
    write(&stem.with_extension("all"), lines(&all))?;
    for language in [Language::Fact, Language::Konclude] {
        write_query(language, Form::Named, &beside(stem, "query"), question)?;
        write_table(language, &beside(stem, "table"), &question.vocabulary)?;
        write_names(language, &beside(stem, "names"), &question.vocabulary)?;
    }
    Ok(())
}

/// The stem of the reasoners' files for a query, a table or the names.
pub fn beside(stem: &Path, what: &str) -> PathBuf {
    let name = stem.file_name().unwrap_or_default().to_string_lossy();
    stem.with_file_name(format!("{name}-{what}"))
}

fn lines(pairs: &[(u16, u16)]) -> String {
    pairs
        .iter()
        .fold(String::new(), |text, (a, b)| format!("{text}{a} {b}\n"))
}

/// A question about a customs vocabulary that something satisfies.
fn question(random: &mut Random, atoms: u16, wanted: Wanted) -> Result<Question, Failure> {
    loop {
        let vocabulary = vocabulary(random, atoms);
        if let Some(question) = choose(random, &vocabulary, wanted)? {
            if !question.is_inconsistent()? {
                return Ok(question);
            }
        }
    }
}

/// A vocabulary under way: what its terms can be made of.
struct Draft {
    made: Making,
    roles: u16,
    names: Vec<u16>,
    /// Names and what is said of one thing by them.
    properties: Vec<u16>,
    /// What is said of goods: by their own properties and by those of what they are related to.
    goods: Vec<u16>,
}

fn vocabulary(random: &mut Random, atoms: u16) -> Vocabulary {
    let names = atoms / 2 + random.below(2);
    let roles = (atoms - names).min(3);
    let mut draft = Draft {
        made: Making::new(roles),
        roles,
        names: Vec::new(),
        properties: Vec::new(),
        goods: Vec::new(),
    };
    draft.put_names(names);
    draft.put_properties(random, names);
    draft.put_relations(random, atoms - names);
    draft.put_goods(random, atoms);
    draft.state_taxonomy(random);
    draft.state_rules(random, atoms / 2);
    draft.put_goods(random, atoms / 2);
    draft.made.vocabulary
}

impl Draft {
    fn put_names(&mut self, count: u16) {
        self.names = (0..count).map(|name| self.made.put(Saying::Name(101 + name))).collect();
        self.properties.clone_from(&self.names);
    }

    /// "Untreated", "processed, of animal origin": negations and pairs of names.
    fn put_properties(&mut self, random: &mut Random, count: u16) {
        for _ in 0..count {
            let (a, b) = (random.pick(&self.properties), random.pick(&self.names));
            let record = match random.below(3) {
                0 => Saying::Not(b),
                1 if a != b => Saying::And(a, b),
                _ => Saying::Or(a, b),
            };
            let number = self.made.put(record);
            self.properties.push(number);
        }
        self.goods.clone_from(&self.properties);
    }

    /// "Has such an ingredient", "all consignees are approved".
    fn put_relations(&mut self, random: &mut Random, count: u16) {
        for place in 0..count {
            let (role, inner) = (place % self.roles, random.pick(&self.properties));
            let record = if random.chance(3) {
                Saying::All(role, inner)
            } else {
                Saying::Some(role, inner)
            };
            let number = self.made.put(record);
            self.goods.push(number);
        }
    }

    /// Kinds of goods: "composite", "to be inspected".
    fn put_goods(&mut self, random: &mut Random, count: u16) {
        for _ in 0..count {
            let (a, b) = (random.pick(&self.goods), random.pick(&self.goods));
            let record = match random.below(5) {
                0 => Saying::Not(a),
                1 | 2 => Saying::Or(a, b),
                _ => Saying::And(a, b),
            };
            let number = self.made.put(record);
            self.goods.push(number);
        }
    }

    /// "Dairy is of animal origin", "nothing is of both origins".
    fn state_taxonomy(&mut self, random: &mut Random) {
        let wide = random.pick(&self.names);
        let others: Vec<u16> = self.names.iter().copied().filter(|name| *name != wide).collect();
        self.made.state(random.pick(&others), wide);
        let both = self.made.put(Saying::And(wide, random.pick(&others)));
        let bottom = self.made.put(Saying::Bottom);
        self.made.state(both, bottom);
    }

    /// "Animal products from such a country must be treated".
    fn state_rules(&mut self, random: &mut Random, count: u16) {
        for _ in 0..count {
            let both = Saying::And(random.pick(&self.goods), random.pick(&self.goods));
            let condition = self.made.put(both);
            let duty = random.pick(&self.goods);
            self.made.state(condition, duty);
        }
    }
}
