//! Sets of records.

/// The bits of a word.
const BITS: usize = u64::BITS as usize;
/// The words of a set: a bit for each record of the largest vocabulary.
const WORDS: usize = judge::RECORDS.div_ceil(BITS);

/// A set of records, by their numbers; one that no accepted vocabulary has is never in it.
#[derive(Clone, Copy, Debug, Default, PartialEq, Eq, PartialOrd, Ord)]
pub struct Set([u64; WORDS]);

impl Set {
    /// The set of these numbers.
    pub fn of(numbers: impl IntoIterator<Item = u16>) -> Set {
        let mut set = Set::default();
        for number in numbers.into_iter().map(usize::from) {
            if let Some(word) = set.0.get_mut(number / BITS) {
                *word |= 1 << (number % BITS);
            }
        }
        set
    }

    /// Its numbers, in order.
    pub fn numbers(self) -> Vec<u16> {
        let has = |number: &u16| {
            let number = usize::from(*number);
            let word = self.0.get(number / BITS).copied().unwrap_or(0);
            word >> (number % BITS) & 1 == 1
        };
        (0..judge::RECORDS as u16).filter(has).collect()
    }

    /// How many there are.
    pub fn count(self) -> usize {
        self.0.iter().map(|word| word.count_ones() as usize).sum()
    }

    /// What is in one of the two.
    pub fn and(self, other: Set) -> Set {
        self.each(other, |a, b| a | b)
    }

    /// What is in the first alone.
    pub fn without(self, other: Set) -> Set {
        self.each(other, |a, b| a & !b)
    }

    /// Whether all that is in the first is in the second.
    pub fn is_part_of(self, other: Set) -> bool {
        self.without(other) == Set::default()
    }

    /// Whether nothing is in both.
    pub fn is_apart_from(self, other: Set) -> bool {
        self.without(other) == self
    }

    fn each(mut self, other: Set, join: fn(u64, u64) -> u64) -> Set {
        for (word, other) in self.0.iter_mut().zip(other.0) {
            *word = join(*word, other);
        }
        self
    }
}
