//! Vocabularies in the making.

use base::vocabulary::{Record, Saying, Vocabulary};
use judge::Edition;

/// A vocabulary to which records are appended.
pub struct Making {
    /// What it is so far.
    pub vocabulary: Vocabulary,
    /// The record whose link is the chain's last.
    last: usize,
}

impl Making {
    /// A header alone, of edition 1, which holds no count of what is appended.
    pub fn new(roles: u16) -> Making {
        Making {
            vocabulary: Vocabulary {
                records: vec![Record::header(Edition::One, roles)],
            },
            last: 0,
        }
    }

    /// Appends a record; a statement is not chained by it. Its number.
    pub fn put(&mut self, saying: Saying) -> u16 {
        let number = self.vocabulary.records.len();
        self.vocabulary.records.push(saying.record(0));
        number as u16
    }

    /// Appends a statement and chains it.
    pub fn state(&mut self, a: u16, b: u16) {
        let number = self.put(Saying::Within(a, b));
        let last = std::mem::replace(&mut self.last, number.into());
        match self.vocabulary.records.get_mut(last) {
            Some(header) if last == 0 => header.a = number,
            Some(statement) => statement.next = number,
            None => {}
        }
    }
}

/// The same records with no statement on the chain.
pub fn without_chain(vocabulary: &Vocabulary) -> Vocabulary {
    let mut without = vocabulary.clone();
    if let Some(header) = without.records.first_mut() {
        header.a = 0;
    }
    without
}

#[cfg(test)]
mod tests {
    use super::{without_chain, Making};
    use base::vocabulary::Saying;

    #[test]
    fn statements_are_chained_in_their_order() {
        let mut making = Making::new(3);
        let name = making.put(Saying::Name(258));
        let bottom = making.put(Saying::Bottom);
        making.state(name, bottom);
        making.put(Saying::Within(bottom, bottom));
        making.state(bottom, name);
        let made = making.vocabulary;
        let header = [16, 1, 3, 0, 3, 0, 0, 0];
        let records = [
            [3, 0, 2, 1, 0, 0, 0, 0],
            [2, 0, 0, 0, 0, 0, 0, 0],
            [9, 0, 1, 0, 2, 0, 5, 0],
            [9, 0, 2, 0, 2, 0, 0, 0],
            [9, 0, 2, 0, 1, 0, 0, 0],
        ];
        assert_eq!(made.bytes(), [&header[..], records.concat().as_slice()].concat());
        assert_eq!(made.statements(), [(1, 2), (2, 1)]);
        assert_eq!(judge::check_vocabulary(&made.bytes()), Ok(6));
        let without = without_chain(&made);
        assert_eq!(without.statements(), []);
        assert_eq!(without.records.get(1..), made.records.get(1..));
        assert_eq!(judge::check_vocabulary(&without.bytes()), Ok(6));
    }
}
