//! Names that are stated to lie within each other in many shapes, and so that each name comes at each place.

use crate::classification::plan::Plan;
use crate::classification::stated::Node::{Bottom, Name, Top};
use crate::classification::stated::Stated;
use crate::comparison::MOST_ATOMS;

/// Each of so many names within the next.
fn chain(count: usize) -> Stated {
    let steps: Vec<[usize; 2]> = (1..count).map(|next| [next - 1, next]).collect();
    Stated::new(count, &steps)
}

/// A chain, with every inclusion that follows stated too: what is stated is not always the nearest.
fn shortcuts(count: usize) -> Stated {
    let above = |i| (i + 1..count).map(move |j| [i, j]);
    Stated::new(count, &(0..count).flat_map(above).collect::<Vec<_>>())
}

/// So many names, all equal.
fn ring(count: usize) -> Stated {
    let steps: Vec<[usize; 2]> = (0..count).map(|i| [i, (i + 1) % count]).collect();
    Stated::new(count, &steps)
}

/// The first of some names within each of the others, or each of the others within it.
fn fan(count: usize, up: bool) -> Stated {
    let step = |i| if up { [0, i] } else { [i, 0] };
    Stated::new(count, &(1..count).map(step).collect::<Vec<_>>())
}

/// A lowest name, a highest, and the others side by side between them.
fn diamond(count: usize) -> Stated {
    let last = count - 1;
    let middle = (1..last).flat_map(|i| [[0, i], [i, last]]);
    Stated::new(count, &middle.chain([[0, last]]).collect::<Vec<_>>())
}

/// Layers of two names, each within both names of the next layer.
fn layers(count: usize) -> Stated {
    let above = |i: usize| [i / 2 * 2 + 2, i / 2 * 2 + 3].into_iter().filter(move |j| *j < count);
    let steps = (0..count).flat_map(|i| above(i).map(move |j| [i, j]));
    Stated::new(count, &steps.collect::<Vec<_>>())
}

/// Pairs of equal names, each pair within the next: two equal nearest names, and names equal to both ends.
fn pairs(count: usize) -> Stated {
    let within = (1..count).map(|next| [next - 1, next]);
    let equal = (1..count).filter(|i| i % 2 == 1).map(|i| [i, i - 1]);
    Stated::new(count, &within.chain(equal).collect::<Vec<_>>())
}

/// Two chains side by side.
fn two_chains(count: usize) -> Stated {
    let steps: Vec<[usize; 2]> = (2..count).map(|next| [next - 2, next]).collect();
    Stated::new(count, &steps)
}

/// Every shape with so many names, from two on.
fn shapes(count: usize) -> Vec<Stated> {
    let last = Name(count - 1);
    let mut made = vec![
        Stated::new(count, &[]),
        chain(count),
        shortcuts(count),
        ring(count),
        fan(count, true),
        fan(count, false),
        diamond(count),
        layers(count),
        pairs(count),
        two_chains(count),
    ];
    // One empty name, two, all of a chain; a name that is everything; both; and no survivor.
    made.push(Stated::new(count, &[]).and(Name(0), Bottom));
    made.push(Stated::new(count, &[]).and(Name(0), Bottom).and(last, Bottom));
    made.push(chain(count).and(Name(count / 2), Bottom));
    made.push(chain(count).and(last, Bottom));
    made.push(chain(count).and(Top, Name(count / 2)));
    made.push(pairs(count).and(Name(0), Bottom).and(Top, last));
    made.push(chain(count).and(Top, Name(0)).and(last, Bottom));
    made
}

impl Plan {
    /// Every shape, with its names in order, turned round and at random places, alone and among other records.
    pub fn shapes(&mut self) {
        for count in [0, 1] {
            let alone = Stated::new(count, &[]);
            self.add_table(&alone.plain(), alone.table());
            for restrictions in [1, 3, MOST_ATOMS - count] {
                self.add_among(&alone, restrictions);
            }
        }
        for count in 2..=MOST_ATOMS {
            for stated in shapes(count) {
                self.add_table(&stated.plain(), stated.table());
                let turned: Vec<usize> = (0..count).rev().collect();
                let stated = stated.renamed(&turned);
                self.add_table(&stated.plain(), stated.table());
                let restrictions = self.random.below(3.min(MOST_ATOMS - count + 1));
                self.add_shuffled(&stated, restrictions);
            }
        }
    }

    /// Adds a shape with its names at random places, among other records.
    pub fn add_shuffled(&mut self, stated: &Stated, restrictions: usize) {
        let mut places: Vec<usize> = (0..stated.count()).collect();
        self.random.shuffle(&mut places);
        self.add_among(&stated.renamed(&places), restrictions);
    }

    /// Adds a shape with its names among other records.
    pub fn add_among(&mut self, stated: &Stated, restrictions: usize) {
        let vocabulary = stated.among_others(3, restrictions, &mut self.random);
        self.add_table(&vocabulary, stated.table());
    }
}
