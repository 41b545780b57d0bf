//! Samples 7 to 10 of the paper and what its readings say of them, written out by hand.

use crate::comparison::{sample_4, v, Terms};
use crate::script::plan::{Base, Plan};
use crate::script::prover::{Extension, Step};
use crate::script::records::{
    set, step, with, Words, CONSTANT, EXTENSION, FIRST, HEADER, NEXT, REDUCTION, START, TERM,
};
use crate::script::writer::Writer;

/// Records with the steps among them chained in order.
pub fn chained(records: &[Words]) -> Vec<Words> {
    let mut chained = records.to_vec();
    let mut holder = (0, FIRST);
    for (place, record) in records.iter().enumerate().skip(1) {
        if [START, EXTENSION, REDUCTION].contains(&record[0]) {
            set(&mut chained, holder.0, holder.1, place as u16);
            holder = (place, NEXT);
        }
    }
    chained
}

/// Sample 7.
pub fn sample_7() -> Vec<Words> {
    chained(&[
        step(HEADER, &[4, 3]),
        step(CONSTANT, &[]),
        step(START, &[1]),
        step(EXTENSION, &[5, 0, 1, 0, 1]),
        step(EXTENSION, &[0, 0, 1, 0, 0]),
    ])
}

/// Sample 9, with its term record at a place, and x of the last step.
pub fn sample_9(term: usize, x: u16) -> Vec<Words> {
    let mut records = vec![
        step(HEADER, &[2, 1]),
        step(CONSTANT, &[]),
        step(START, &[0]),
        step(EXTENSION, &[2, 1, 1, 0, 0]),
        step(EXTENSION, &[1, 0, x, 0, 0]),
    ];
    records.insert(term, step(TERM, &[2, 1]));
    chained(&records)
}

impl Plan {
    /// Every sample.
    pub fn samples(&mut self) {
        let (v, fourth) = (v().bytes(), sample_4().bytes());
        self.add_records(&v, &sample_7(), "accepted 3");
        let without_last = chained(&sample_7().iter().take(4).map(unlinked).collect::<Vec<_>>());
        self.add_records(&v, &without_last, "refused 24 3");
        for term in 2..=4 {
            self.add_records(&fourth, &sample_9(term, term as u16), "accepted 3");
            self.add_records(&fourth, &sample_9(term, 1), "refused 21 5");
        }
        self.add_records(&fourth, &sample_9(5, 5), "refused 18 4");
        self.header_alone();
        self.no_steps(&v);
        self.deep_functions(&fourth);
    }

    /// A header alone is a vocabulary, and each query gives 10; a script's header alone gives 17.
    fn header_alone(&mut self) {
        let empty = Terms::new(64).bytes();
        for [a, b] in [[0, 0], [1, 0], [0, 1], [1, 2], [65535, 1]] {
            let header = step(HEADER, &[a, b]);
            let meant = format!("refused 10 {a}");
            self.add_records(&empty, &[header], &meant);
            self.add_records(&empty, &[header, step(CONSTANT, &[])], &meant);
        }
        for first in [0, 1, 2, 65535] {
            let header = step(HEADER, &[4, 3, first]);
            self.add_records(&v().bytes(), &[header], "refused 17 1");
        }
    }

    /// A chain without steps is 20, whatever stands off the chain.
    fn no_steps(&mut self, vocabulary: &[u8]) {
        let mut records = sample_7();
        set(&mut records, 0, FIRST, 0);
        for length in 2..=records.len() {
            let mut some = records.clone();
            some.truncate(length);
            set(&mut some, length - 1, NEXT, 0);
            self.add_records(vocabulary, &some, "refused 20 0");
        }
    }

    /// Sample 9's last step at terms with the same outermost function: only f2(a) connects.
    fn deep_functions(&mut self, vocabulary: &[u8]) {
        for depth in 0..6 {
            let mut writer = Writer::new([2, 1]);
            let term = writer.term(&vec![2; depth]);
            writer.step(&Step::Start(0));
            writer.step(&Step::Extension(Extension {
                owner: 2,
                column: 1,
                x: Vec::new(),
                y: None,
                position: 0,
            }));
            writer.chained(step(EXTENSION, &[1, 0, term, 0, 0]));
            writer.link_chain();
            let vocabulary = vocabulary.to_vec();
            if depth == 1 {
                self.add_base(Base { vocabulary, writer });
            } else {
                let meant = format!("refused 21 {}", writer.records.len() - 1);
                self.add(&vocabulary, writer.bytes(), &meant);
            }
        }
    }
}

/// A record with its next taken out.
fn unlinked(record: &Words) -> Words {
    with(*record, NEXT, 0)
}
