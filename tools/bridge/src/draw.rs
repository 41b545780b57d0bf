//! Random questions for the comparison with the reasoners.

use base::vocabulary::{Saying, Vocabulary};
use base::Failure;

use crate::making::Making;
use crate::question::{choose, Question, Wanted};
use crate::random::Random;

/// The fewest atoms of a vocabulary; the most are those that can be compared.
const FEWEST_ATOMS: usize = 2;

/// A random question. The sort of the pair is drawn first, since most pairs drawn blindly are different; of the
/// vocabularies that nothing satisfies, which make all pairs equal, two in three are left out.
pub fn question(random: &mut Random) -> Result<Question, Failure> {
    let wanted = match random.below(8) {
        0 => Wanted::Any,
        1..=3 => Wanted::Different,
        _ => Wanted::Equal,
    };
    loop {
        let vocabulary = vocabulary(random);
        if let Some(question) = choose(random, &vocabulary, wanted)? {
            if !question.is_inconsistent()? || random.chance(3) {
                return Ok(question);
            }
        }
    }
}

/// A random vocabulary of 1 to 4 roles.
fn vocabulary(random: &mut Random) -> Vocabulary {
    let roles = 1 + random.below(4);
    let mut made = Making::new(roles);
    let mut atoms = FEWEST_ATOMS as u16 + random.below((judge::ATOMS - FEWEST_ATOMS + 1) as u16);
    let mut others = 3 + random.below(14);
    let mut statements = 1 + random.below(8);
    while atoms + others > 0 {
        if random.below(atoms + others) < atoms {
            atoms -= 1;
            put_atom(random, &mut made, roles);
        } else {
            others -= 1;
            put_connected(random, &mut made);
        }
        if statements > 0 && random.chance(4) {
            statements -= 1;
            put_statement(random, &mut made);
        }
    }
    for _ in 0..statements {
        put_statement(random, &mut made);
    }
    made.vocabulary
}

/// A term; half of the time one of the later, so that terms are nested.
fn term(random: &mut Random, made: &Making) -> u16 {
    let terms = made.vocabulary.terms();
    let drawn = random.pick(&terms);
    if random.chance(2) {
        drawn.max(random.pick(&terms))
    } else {
        drawn
    }
}

/// A name, a some or an all; the first is a name, since there is no term before it.
fn put_atom(random: &mut Random, made: &mut Making, roles: u16) {
    let inner = term(random, made);
    let record = match random.below(5) {
        0 | 1 if inner != 0 => Saying::Some(random.below(roles), inner),
        2 if inner != 0 => Saying::All(random.below(roles), inner),
        _ => Saying::Name(made.vocabulary.records.len() as u16),
    };
    made.put(record);
}

fn put_connected(random: &mut Random, made: &mut Making) {
    let (a, b) = (term(random, made), term(random, made));
    let record = match random.below(16) {
        _ if a == 0 => Saying::Top,
        0 => Saying::Top,
        1 => Saying::Bottom,
        2..=5 => Saying::Not(a),
        6..=10 => Saying::And(a, b),
        _ => Saying::Or(a, b),
    };
    made.put(record);
}

/// A statement: one in six off the chain; one in three of the others both ways, as a definition is.
fn put_statement(random: &mut Random, made: &mut Making) {
    let (a, b) = (term(random, made), term(random, made));
    if random.chance(6) {
        made.put(Saying::Within(a, b));
    } else {
        made.state(a, b);
        if random.chance(3) {
            made.state(b, a);
        }
    }
}
