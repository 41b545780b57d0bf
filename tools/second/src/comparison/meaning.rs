//! The interpretation that is written, read back from the bytes and the vocabulary, and held to the
//! section "Meaning": an account of the answer that makes no use of truth at types for terms.

use crate::comparison::call::Compared;
use crate::comparison::types::{chained, Set, Types};
use crate::vocabulary::records::{Record, A};

/// The elements of an interpretation, and which of them belong to each record's term.
pub struct Interpretation {
    /// The elements, rising.
    pub elements: Vec<usize>,
    /// For each record, for each element by its place, whether it belongs.
    members: Vec<Vec<bool>>,
}

/// The interpretation that bytes hold: its elements are the numbers whose bit is 1.
pub fn read_back(types: &Types, bytes: &[u8]) -> Interpretation {
    let is_one = |t: &usize| bytes.get(t / 8).is_some_and(|byte| byte >> (t % 8) & 1 == 1);
    let mut read = Interpretation {
        elements: (0..8 * bytes.len()).filter(is_one).collect(),
        members: Vec::new(),
    };
    for (number, record) in types.records.iter().enumerate() {
        let placed = read.elements.iter().enumerate();
        let belongs = |(place, d): (usize, &usize)| match record.kind {
            3 => types.is_true(number, *d),
            _ => read.belongs(types, record, place, *d),
        };
        let members = placed.map(belongs).collect();
        read.members.push(members);
    }
    read
}

impl Interpretation {
    /// Whether the element at a place belongs to the term of a record that has been read.
    pub fn has(&self, term: usize, place: usize) -> bool {
        let members = self.members.get(term);
        members.and_then(|all| all.get(place)).is_some_and(|belongs| *belongs)
    }

    /// Whether the element d at a place belongs to the term of a record that is no name, by the section
    /// on meaning.
    fn belongs(&self, types: &Types, record: &Record, place: usize, d: usize) -> bool {
        let [a, b] = record.operands();
        let placed = self.elements.iter().enumerate();
        let mut partners = placed.filter(|(_, e)| types.allowed(record.fields[A], d, **e));
        match record.kind {
            1 => true,
            4 => !self.has(a, place),
            5 => self.has(a, place) && self.has(b, place),
            6 => self.has(a, place) || self.has(b, place),
            7 => partners.any(|(partner, _)| self.has(b, partner)),
            8 => partners.all(|(partner, _)| self.has(b, partner)),
            _ => false,
        }
    }

    /// The first element at which two terms differ.
    fn first_difference(&self, a: usize, b: usize) -> Option<usize> {
        let mut placed = self.elements.iter().enumerate();
        let first = placed.find(|(place, _)| self.has(a, *place) != self.has(b, *place));
        first.map(|(_, element)| *element)
    }

    /// Whether the interpretation satisfies the statements of the vocabulary.
    pub fn satisfies(&self, types: &Types) -> bool {
        chained(&types.records).iter().all(|statement| {
            let [a, b] = statement.operands();
            (0..self.elements.len()).all(|place| !self.has(a, place) || self.has(b, place))
        })
    }
}

/// What the written interpretation has against an answer, or nothing.
pub fn objection(types: &Types, compared: &Compared, terms: [u32; 2], bytes: &[u8]) -> Option<String> {
    let read = read_back(types, bytes);
    let [a, b] = terms.map(|term| term as usize);
    if read.elements != compared.survivors {
        return Some("the bytes hold other elements than the survivors".to_string());
    }
    if !read.satisfies(types) {
        return Some("the interpretation breaks a statement".to_string());
    }
    let element = read.first_difference(a, b);
    (element != compared.element).then(|| format!("the terms differ at {element:?} first"))
}

/// Whether each set of types at which all statements hold and which serves its members lies within
/// the survivors, which are such a set. All sets are tried, so the types have to be few.
pub fn is_largest(types: &Types, survivors: &Set) -> bool {
    let first = types.first_set(&chained(&types.records));
    let serves_itself = |set: &Vec<usize>| set.iter().all(|t| types.served(set, *t));
    let fits = |set: &Vec<usize>| set.iter().all(|t| first.contains(t)) && serves_itself(set);
    let members = |bits: usize| (0..types.count()).filter(move |t| bits >> t & 1 == 1);
    let sets = (0..1usize << types.count()).map(|bits| members(bits).collect::<Vec<usize>>());
    let within = |set: &Vec<usize>| set.iter().all(|t| survivors.contains(t));
    fits(survivors) && sets.filter(fits).all(|set| within(&set))
}
