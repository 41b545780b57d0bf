//! The paper's samples, of which the survivors and the rounds are known, and names around the limits.

use crate::classification::plan::Plan;
use crate::comparison::samples::{mixed_atoms, name_atoms, sample_3, sample_4, sample_5, sample_6, v, v_both_ways};
use crate::comparison::Terms;

/// A name after so many restrictions of alternate kinds, and a second name after it: few names, however many atoms.
fn few_names(restrictions: usize, names: usize) -> Terms {
    let mut terms = Terms::new(2);
    let top = terms.top();
    for j in 0..restrictions as u16 {
        terms.push(7 + (j % 2) as u8, j % 2, top);
    }
    terms.name_list(names);
    terms
}

impl Plan {
    /// Samples 1 to 6 with more than one number of lent bytes, and what sample 10 says of atoms and lent bytes.
    pub fn samples(&mut self) {
        for lent in [[512, 144], [513, 145], [600, 1000]] {
            let mut add = |terms: Terms, meant: &str| self.add_lent(&terms.bytes(), lent, meant);
            add(v(), "counts 7 0 f7 020000000200000002 ");
            add(v_both_ways(), "counts 4 0 87 020000000200010102 ");
            add(sample_3(), "counts 3 0 0d 02 ");
            add(sample_4(), "counts 1 1 01 - ");
            add(sample_5(), "counts 0 0 - - ");
            add(sample_6(), "counts 8 0 f5a0 02000002 ");
            add(Terms::new(0), "counts 1 0 01 - ");
            add(Terms::new(64), "counts 1 0 01 - ");
        }
        self.atom_counts();
        self.lent_bytes();
    }

    /// 12 atoms are classified, 13 give 11, however few of them are names.
    fn atom_counts(&mut self) {
        for k in [11, 12] {
            self.add(&name_atoms(k).bytes());
            self.add(&mixed_atoms(k).bytes());
        }
        for k in [13, 14, 16, 255, 256, 300, 510] {
            let refused = format!("refused 11 {k} ");
            for lent in [[512, 144], [511, 144], [512, 143], [0, 0]] {
                self.add_lent(&name_atoms(k).bytes(), lent, &refused);
                self.add_lent(&mixed_atoms(k).bytes(), lent, &refused);
                self.add_lent(&few_names(k - 2, 2).bytes(), lent, &refused);
            }
            self.add_lent(&few_names(k, 0).bytes(), [512, 144], &refused);
        }
        for names in 0..=3 {
            self.add(&few_names(12 - names, names).bytes());
        }
    }

    /// Every number of lent bytes next to a limit with every other: 12 under 512 for the survivors, then 26 under 144
    /// for the taxonomy.
    fn lent_bytes(&mut self) {
        let numbers = [0, 1, 8, 143, 144, 145, 511, 512, 513, 1024];
        for terms in [Terms::new(1), v(), sample_5(), name_atoms(12)] {
            let vocabulary = terms.bytes();
            for survivors in numbers {
                for taxonomy in numbers {
                    let meant = match (survivors, taxonomy) {
                        (0..512, _) => "refused 12 0 ",
                        (_, 0..144) => "refused 26 0 ",
                        _ => "counts ",
                    };
                    self.add_lent(&vocabulary, [survivors, taxonomy], meant);
                }
            }
        }
    }
}
