//! Twelve names, six of which are stated to be everything or nothing, so that all survivors stand among 64 types in a
//! row, or at the same place of each 64. The other six are in a random order. So each 64 types in a row, and each place
//! among 64, alone decide some table.

use crate::classification::plan::Plan;
use crate::classification::stated::Node::{Bottom, Name, Top};
use crate::classification::stated::Stated;
use crate::comparison::MOST_ATOMS;
use crate::random::Random;

/// The names that are stated to be everything or nothing, and the others: six each.
const HALF: usize = MOST_ATOMS / 2;
/// How many ways there are to state it.
const WAYS: usize = 1 << HALF;
/// How often the first way and the last are taken besides: loops err at their ends.
const AGAIN: usize = 4;

/// Six names in a random order, each of which has at most one stated below it, and six that are everything where a bit
/// is 1, and nothing where it is 0.
fn half(bits: usize, random: &mut Random) -> Stated {
    let below = |i| random.chance(2).then(|| [random.below(i), i]);
    let steps: Vec<[usize; 2]> = (1..HALF).filter_map(below).collect();
    let mut stated = Stated::new(MOST_ATOMS, &steps);
    for bit in 0..HALF {
        let name = Name(HALF + bit);
        let [below, above] = if bits >> bit & 1 == 1 {
            [Top, name]
        } else {
            [name, Bottom]
        };
        stated = stated.and(below, above);
    }
    stated
}

impl Plan {
    /// Every way, with the six that are in an order first, and with them last.
    pub fn halves(&mut self) {
        for first in [0, HALF] {
            for bits in (0..WAYS).chain([0, WAYS - 1].repeat(AGAIN)) {
                let stated = half(bits, &mut self.random);
                let mut places: Vec<usize> = (first..first + HALF).collect();
                self.random.shuffle(&mut places);
                places.extend((HALF..MOST_ATOMS).map(|place| (place + first) % MOST_ATOMS));
                let stated = stated.renamed(&places);
                self.add_table(&stated.plain(), stated.table());
            }
        }
    }
}
