//! Scripts as records, for display: which are accepted is the library's to say.

use std::collections::HashMap;

/// The eight words of a record.
pub type Words = [u16; 8];

/// w0 of the header.
pub const HEADER_WORD: u16 = 32;

/// The records of whole sixteen bytes.
pub fn read(bytes: &[u8]) -> Vec<Words> {
    bytes.chunks_exact(judge::SCRIPT_RECORD_BYTES).map(words).collect()
}

fn words(bytes: &[u8]) -> Words {
    let mut words = [0; 8];
    for (word, pair) in words.iter_mut().zip(bytes.chunks_exact(2)) {
        if let [low, high] = *pair {
            *word = u16::from_le_bytes([low, high]);
        }
    }
    words
}

/// The bytes of a record.
pub fn bytes(words: &Words) -> impl Iterator<Item = u8> + '_ {
    words.iter().flat_map(|word| word.to_le_bytes())
}

/// What a record says whose kind is one of docs/FORMATS.md, section 5.
#[derive(Clone, Copy, Debug, PartialEq, Eq)]
pub enum Entry {
    /// Kind 1: the constant a.
    Constant,
    /// Kind 2: a function's record, and the script record of the inner term.
    Function(u16, u16),
    /// Kind 3: the query column.
    Start(u16),
    /// Kind 4.
    Extend(Extension),
    /// Kind 5: the frame.
    Reduce(u16),
}

/// The words of an extension.
#[derive(Clone, Copy, Debug, Default, PartialEq, Eq)]
pub struct Extension {
    /// The owner: a record of the vocabulary, or 0 for the query.
    pub owner: u16,
    /// The column of the owner.
    pub column: u16,
    /// The script record of the term for x.
    pub x: u16,
    /// The script record of the term for y, or 0.
    pub y: u16,
    /// The position in the column.
    pub position: u16,
}

impl Entry {
    /// What a record says; nothing where its kind is unknown, or a word is used that the kind does not use.
    pub fn read(words: Words) -> Option<Entry> {
        let [kind, w1, w2, w3, w4, w5, _, next] = words;
        let entry = match kind {
            1 => Entry::Constant,
            2 => Entry::Function(w1, w2),
            3 => Entry::Start(w1),
            4 => Entry::Extend(Extension {
                owner: w1,
                column: w2,
                x: w3,
                y: w4,
                position: w5,
            }),
            5 => Entry::Reduce(w1),
            _ => return None,
        };
        (entry.words(next) == words).then_some(entry)
    }

    /// The words of the record that says it. `next` is a step's.
    pub fn words(self, next: u16) -> Words {
        match self {
            Entry::Constant => [1, 0, 0, 0, 0, 0, 0, 0],
            Entry::Function(function, inner) => [2, function, inner, 0, 0, 0, 0, 0],
            Entry::Start(column) => [3, column, 0, 0, 0, 0, 0, next],
            Entry::Extend(e) => [4, e.owner, e.column, e.x, e.y, e.position, 0, next],
            Entry::Reduce(frame) => [5, frame, 0, 0, 0, 0, 0, next],
        }
    }

    /// The same with other term records: for the inner term of a function, and for x and y of an extension.
    pub fn with_terms(self, term: impl Fn(u16) -> u16) -> Entry {
        match self {
            Entry::Function(function, inner) => Entry::Function(function, term(inner)),
            Entry::Extend(e) => Entry::Extend(Extension {
                x: term(e.x),
                y: term(e.y),
                ..e
            }),
            Entry::Constant | Entry::Start(_) | Entry::Reduce(_) => self,
        }
    }

    /// Whether it is a step.
    pub fn is_step(self) -> bool {
        matches!(self, Entry::Start(_) | Entry::Extend(_) | Entry::Reduce(_))
    }
}

/// Which records are steps on the chain. A link that leads back or to no step ends it.
pub fn chained(records: &[Words]) -> Vec<bool> {
    let get = |number: usize| records.get(number).copied().unwrap_or_default();
    let [_, _, _, first, ..] = get(0);
    let is_step = |number| Entry::read(get(number)).is_some_and(Entry::is_step);
    base::chain::followed(records.len(), first, is_step, |number| {
        let [.., next] = get(number);
        next
    })
}

/// For each record the first that says the same term: function and inner term are the same, all the way to the
/// constant. A record that says no term is its own first.
pub fn firsts(records: &[Words]) -> Vec<u16> {
    let (mut firsts, mut said): (Vec<u16>, HashMap<Words, u16>) = (Vec::new(), HashMap::new());
    for (number, words) in (0..=u16::MAX).zip(records) {
        let term = Entry::read(*words).filter(|entry| number > 0 && !entry.is_step());
        let written = term.map(|term| term.with_terms(|inner| first_of(&firsts, inner)).words(0));
        firsts.push(written.map_or(number, |written| *said.entry(written).or_insert(number)));
    }
    firsts
}

/// The first of a record, which is itself where none is known.
pub fn first_of(firsts: &[u16], number: u16) -> u16 {
    firsts.get(usize::from(number)).copied().unwrap_or(number)
}

/// The records of a script with each term named by its first record, so that equal numbers are equal terms.
pub fn merged(records: &[Words]) -> Vec<Words> {
    let firsts = firsts(records);
    let named = |words: &Words| match (Entry::read(*words), words) {
        (Some(entry), [.., next]) => entry.with_terms(|term| first_of(&firsts, term)).words(*next),
        (None, _) => *words,
    };
    records.iter().map(named).collect()
}
