//! Samples 1 to 6 and 10 of the paper, with its figures.

use crate::comparison::plan::Plan;
use crate::comparison::terms::Terms;

/// The vocabulary V: names 1, 2, 3; 4 = 1 and 2; 5: 4 within 3.
pub fn v() -> Terms {
    let mut terms = Terms::new(0);
    let [first, second, third] = terms.names();
    let both = terms.and(first, second);
    terms.within(both, third);
    terms
}

/// V with 6: 3 within 4 chained.
pub fn v_both_ways() -> Terms {
    let mut terms = v();
    terms.within(3, 4);
    terms
}

/// Name 1; 2 some role 0 to 1; 3: 1 within 2; 4 bottom.
pub fn sample_3() -> Terms {
    let mut terms = Terms::new(1);
    let name = terms.name();
    let some = terms.some(0, name);
    terms.within(name, some);
    terms.bottom();
    terms
}

/// Bottom 1; 2 some role 0 to 1.
pub fn sample_4() -> Terms {
    let mut terms = Terms::new(1);
    let bottom = terms.bottom();
    terms.some(0, bottom);
    terms
}

/// Top 1, bottom 2, 3: 1 within 2.
pub fn sample_5() -> Terms {
    let mut terms = Terms::new(0);
    let (top, bottom) = (terms.top(), terms.bottom());
    terms.within(top, bottom);
    terms
}

/// Names 1, 2; 3 some role 0 to 2; 4 all role 0 to 2; 5: 1 within 3; 6: 4 within 1; 7 top.
pub fn sample_6() -> Terms {
    let mut terms = Terms::new(1);
    let [first, second] = terms.names();
    let some = terms.some(0, second);
    let all = terms.all(0, second);
    terms.within(first, some);
    terms.within(all, first);
    terms.top();
    terms
}

/// Atoms of the three kinds in turn, names first.
pub fn mixed_atoms(count: usize) -> Terms {
    let mut terms = Terms::new(2);
    for j in 0..count as u16 {
        match j % 3 {
            0 => terms.name(),
            1 => terms.some(j % 2, j),
            _ => terms.all(j % 2, j),
        };
    }
    terms
}

/// As many names.
pub fn name_atoms(count: usize) -> Terms {
    let mut terms = Terms::new(0);
    terms.name_list(count);
    terms
}

impl Plan {
    /// Every sample, with more than one number of lent bytes.
    pub fn samples(&mut self) {
        for lent in [512, 513, 600] {
            let mut add = |terms: Terms, a, b, meant: &str| {
                self.add_lent(&terms.bytes(), [a, b], lent, meant);
            };
            add(v(), 4, 3, "different 4 7 0 f7 ");
            add(v_both_ways(), 4, 3, "equal 4 0 87 ");
            add(sample_3(), 1, 4, "different 3 3 0 0d ");
            add(sample_4(), 1, 2, "equal 1 1 01 ");
            add(sample_5(), 1, 2, "equal 0 0 - ");
            add(sample_6(), 1, 7, "different 0 8 0 f5a0 ");
        }
        self.header_alone();
        self.atom_counts();
        self.lent_bytes();
    }

    /// A header alone: each query gives 10.
    fn header_alone(&mut self) {
        let vocabulary = Terms::new(64).bytes();
        for [a, b] in [[0, 0], [1, 0], [0, 1], [1, 2], [2, 1], [65535, 1], [u32::MAX, 0]] {
            self.add(&vocabulary, a, b, &format!("refused 10 {a} "));
        }
    }

    /// 12 atoms compare, 13 give 11.
    fn atom_counts(&mut self) {
        for make in [name_atoms, mixed_atoms] {
            for k in [11, 12] {
                self.add(&make(k).bytes(), 1, 4, "different 1 ");
                self.add(&make(k).bytes(), 1, 1, "equal ");
            }
            for k in [13, 14, 16, 255, 256, 300, 511] {
                self.add(&make(k).bytes(), 1, 4, &format!("refused 11 {k} "));
            }
        }
    }

    /// 511 bytes lent give 12, with few atoms and with 12; 512 and more are enough.
    fn lent_bytes(&mut self) {
        let samples = [(v(), 4, 3), (sample_5(), 1, 2), (name_atoms(12), 1, 2)];
        for (terms, a, b) in samples {
            let vocabulary = terms.bytes();
            for lent in [0, 1, 8, 256, 510, 511] {
                self.add_lent(&vocabulary, [a, b], lent, "refused 12 0 ");
            }
            for lent in [512, 513, 600, 1023, 1024] {
                self.add_lent(&vocabulary, [a, b], lent, "");
            }
        }
    }
}
