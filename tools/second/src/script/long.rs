//! Scripts with as many records as there may be, and vocabularies with as many.

use crate::script::plan::{refused, Base, Plan};
use crate::script::records::{
    replace, step, with, CONSTANT_PLACE, EXTENSION, KIND, MOST_RECORDS, NEXT, OWNER, REDUCTION, START, TERM,
};
use crate::script::towers::Tower;
use crate::script::writer::Writer;
use crate::vocabulary::records::RECORD_BYTES as VOCABULARY_RECORD;
use crate::vocabulary::MOST_RECORDS as MOST_VOCABULARY_RECORDS;

/// The most extensions of a script: header, constant and start are records too.
const MOST_EXTENSIONS: usize = MOST_RECORDS - 3;

impl Plan {
    /// All long scripts.
    pub fn long(&mut self) {
        for (steps, holds) in [(MOST_EXTENSIONS, true), (MOST_EXTENSIONS, false)] {
            let (base, _) = Tower::counted(steps, holds).script(0, self);
            self.add_base(base);
        }
        let (over, _) = Tower::counted(MOST_EXTENSIONS + 1, true).script(0, self);
        self.add(&over.vocabulary, over.writer.bytes(), &refused(13, 0));
        for steps in [100, 101, 150, 255, 256, 257, 400] {
            let (base, _) = Tower::counted(steps, steps % 3 == 0).script(0, self);
            self.late_faults(&base, 2);
            self.add_base(base);
        }
        let (base, _) = Tower::counted(MOST_EXTENSIONS - 1, true).script(0, self);
        self.late_faults(&base, 5);
        self.filled();
        self.full_vocabularies();
        self.deep_terms();
    }

    /// Faults late in a long script, one of each sort up to `count`.
    fn late_faults(&mut self, base: &Base, count: usize) {
        let writer = &base.writer;
        let last = writer.chain.len() - 1;
        let late = last - self.random.below(last.min(5));
        let place = writer.place(late);
        let mut sorts: Vec<usize> = (0..7).collect();
        self.random.shuffle(&mut sorts);
        for sort in sorts.into_iter().take(count) {
            // The constant is where no term stands before a place, 65535 where no record does.
            let (record, number) = match sort {
                0 => (step(START, &[0]), 20),
                1 => (self.unconnected(base, place), 21),
                2 => (step(REDUCTION, &[65535]), 22),
                3 => (step(6, &[]), 15),
                4 => (step(START, &[0, 1]), 16),
                5 => (step(EXTENSION, &[65535, 0, 1]), 18),
                _ => (step(TERM, &[0, CONSTANT_PLACE]), 17),
            };
            let mut wrong = writer.clone();
            let next = match record[KIND] {
                TERM => 0,
                _ => writer.record(place)[NEXT],
            };
            replace(&mut wrong.records, place, with(record, NEXT, next));
            self.add(&base.vocabulary, wrong.bytes(), &refused(number, place));
        }
        self.cut(&base.vocabulary, writer, late - 1);
        let mut longer = writer.clone();
        longer.chained(step(REDUCTION, &[0]));
        longer.link_chain();
        let after = longer.records.len() - 1;
        self.add(&base.vocabulary, longer.bytes(), &refused(25, after));
    }

    /// An extension like the one at a place by the other of top and bottom, which are records 1 and
    /// 2, or by top at an inner column: its literal is not the complement.
    fn unconnected(&mut self, base: &Base, place: usize) -> [u16; 8] {
        let owner = base.writer.record(place)[OWNER];
        let other = if owner == 1 { 2 } else { 1 };
        step(EXTENSION, &[other, 0, CONSTANT_PLACE, 0, 0])
    }

    /// Towers that idle records fill up to the most.
    fn filled(&mut self) {
        for height in [40, 63] {
            let tower = Tower::random(height, &mut self.random);
            let (mut base, _) = tower.script(3, self);
            let matrix = base.matrix();
            while base.writer.records.len() < MOST_RECORDS {
                base.writer.idle(&matrix, &mut self.random);
            }
            base.writer.records.truncate(MOST_RECORDS);
            base.writer.link(&mut self.random);
            self.add_base(base);
        }
    }

    /// Vocabularies of 511 and 512 records, and one of 513.
    fn full_vocabularies(&mut self) {
        for count in [511, 512, 512, 513] {
            for height in [3, 63] {
                let mut tower = Tower::random(height, &mut self.random);
                tower.pad(count);
                let (base, _) = tower.script(4, self);
                let length = base.vocabulary.len() / VOCABULARY_RECORD;
                if length > MOST_VOCABULARY_RECORDS {
                    self.add(&base.vocabulary, base.writer.bytes(), &refused(1, 0));
                } else {
                    if height < 63 {
                        self.late_faults(&base, 1);
                    }
                    self.add_base(base);
                }
            }
        }
    }

    /// Terms as deep as there are records: r(a,y) does not connect with ¬r(a,f3(a)) for the deepest
    /// y, and does for f3(a). Record 1 is top, 3 the some-record and 4 the statement of the pairs.
    fn deep_terms(&mut self) {
        let vocabulary = Tower::new().terms.bytes();
        for depth in [300, MOST_RECORDS - 6] {
            let mut writer = Writer::new([1, 2]);
            let first = writer.push(step(TERM, &[3, CONSTANT_PLACE]));
            let last = (1..depth).fold(first, |inner, _| writer.push(step(TERM, &[3, inner])));
            writer.chained(step(START, &[0]));
            writer.chained(step(EXTENSION, &[4, 0, CONSTANT_PLACE, 0, 0]));
            writer.chained(step(EXTENSION, &[3, 0, CONSTANT_PLACE, 0, 0]));
            let place = writer.records.len();
            for (y, number) in [(last, 21), (first, 24)] {
                let mut ended = writer.clone();
                ended.chained(step(EXTENSION, &[3, 2, CONSTANT_PLACE, y, 1]));
                ended.link_chain();
                self.add(&vocabulary, ended.bytes(), &refused(number, place));
            }
        }
    }
}
