//! A seeded source of numbers (splitmix64), the same in every run.

/// The state of the source.
pub struct Random(u64);

impl Random {
    /// A source that starts at a seed.
    pub fn new(seed: u64) -> Random {
        Random(seed)
    }

    /// The next 64 bits.
    fn bits(&mut self) -> u64 {
        self.0 = self.0.wrapping_add(0x9E37_79B9_7F4A_7C15);
        let mut z = self.0;
        z = (z ^ (z >> 30)).wrapping_mul(0xBF58_476D_1CE4_E5B9);
        z = (z ^ (z >> 27)).wrapping_mul(0x94D0_49BB_1331_11EB);
        z ^ (z >> 31)
    }

    /// A number below `end`, or 0 where that is 0.
    pub fn below(&mut self, end: u16) -> u16 {
        (self.bits() % u64::from(end.max(1))) as u16
    }

    /// True once in `times`.
    pub fn chance(&mut self, times: u16) -> bool {
        self.below(times) == 0
    }

    /// One of the numbers, or 0 where there are none.
    pub fn pick(&mut self, numbers: &[u16]) -> u16 {
        let place = self.bits() % numbers.len().max(1) as u64;
        numbers.get(place as usize).copied().unwrap_or(0)
    }
}

#[cfg(test)]
mod tests {
    #![allow(clippy::unwrap_used)]

    use super::Random;
    use crate::draw;

    /// The first numbers that splitmix64 is known by, of seed 1234567.
    #[test]
    fn the_numbers_are_those_of_splitmix64() {
        let mut random = Random::new(1_234_567);
        for expected in [
            6_457_827_717_110_365_317,
            3_203_168_211_198_807_973,
            9_817_491_932_198_370_423,
        ] {
            assert_eq!(random.bits(), expected);
        }
    }

    #[test]
    fn what_is_drawn_stays_below_its_end() {
        let mut random = Random::new(1);
        let drawn: Vec<u16> = (0..200).map(|_| random.below(3)).collect();
        assert!([0, 1, 2].iter().all(|number| drawn.contains(number)));
        assert!(drawn.iter().all(|number| *number < 3));
        assert_eq!((random.below(0), random.pick(&[])), (0, 0));
        assert_eq!(random.pick(&[8]), 8);
    }

    #[test]
    fn a_seed_draws_the_same_questions_again_and_another_seed_others() {
        let draw = |seed| {
            let mut random = Random::new(seed);
            let question = |_| {
                let question = draw::question(&mut random).unwrap();
                (question.bytes, question.a, question.b)
            };
            (0..5).map(question).collect::<Vec<_>>()
        };
        assert_eq!(draw(1), draw(1));
        assert_ne!(draw(1), draw(2));
    }
}
