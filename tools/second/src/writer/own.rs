//! The new record's own rows: 3 to 7, each alone and in pairs, and what just passes.

use crate::vocabulary::faults::{near_labels, way, ways};
use crate::vocabulary::records::Record;
use crate::vocabulary::Draft;
use crate::writer::file::Call;
use crate::writer::plan::{call_of, refused, Plan};

/// How many records stand before the new one, and which part of the ways to meet a row is taken: one in so many.
const COUNTS: [(usize, usize); 9] = [
    (1, 1),
    (2, 1),
    (3, 1),
    (7, 1),
    (12, 1),
    (33, 2),
    (256, 20),
    (300, 20),
    (511, 20),
];
/// Kinds that are no term's.
const OTHER_KINDS: [u8; 20] = [
    0, 9, 9, 9, 10, 11, 12, 13, 14, 15, 16, 17, 24, 32, 64, 129, 131, 136, 137, 255,
];

/// Whether a call can ask for a record: it has no next and no second byte.
pub fn can_be_asked(record: &Record) -> bool {
    record.second == 0 && record.fields[2] == 0
}

impl Plan {
    /// Rows 4 to 7: each way to meet each of them, in each kind; records that may be added; labels and roles that just
    /// pass.
    pub fn own_rows(&mut self) {
        for (count, one_in) in COUNTS {
            for kind in 1..=9 {
                let draft = self.vocabulary(count);
                for row in 4..=7 {
                    self.ways_to_meet(&draft, kind, row, one_in);
                }
                if let Some(record) = draft.valid(kind, &mut self.random) {
                    self.add_accepted(&draft, record);
                }
            }
        }
        self.labels();
        for roles in [0, 1, 2, 5, 63, 64] {
            self.roles(roles);
        }
    }

    /// The ways in which a record of a kind meets a row; one in so many of them.
    fn ways_to_meet(&mut self, draft: &Draft, kind: u8, row: u8, one_in: usize) {
        let count = draft.records.len();
        let blank = (row <= 5).then_some(Record::new(kind, 0, 0, 0));
        let Some(record) = draft.valid(kind, &mut self.random).or(blank) else {
            return;
        };
        for wrong in ways(row, record, draft, count + 1) {
            if can_be_asked(&wrong) && self.random.chance(one_in) {
                self.add(&draft.bytes(), call_of(wrong), refused(row, count));
            }
        }
    }

    /// The label of each name, and those that are near to one.
    fn labels(&mut self) {
        let draft = self.vocabulary(26);
        for label in draft.labels() {
            let name = Record::new(3, label, 0, 0);
            self.add(&draft.bytes(), call_of(name), refused(7, 26));
        }
        let draft = self.vocabulary(13);
        for name in near_labels(&draft) {
            self.add_accepted(&draft, name);
        }
        for count in [1, 2, 5, 9] {
            let draft = self.vocabulary(count);
            for wanted in [0, 255, 256, 65535] {
                let label = draft.free_label(wanted);
                self.add_accepted(&draft, Record::new(3, label, 0, 0));
            }
        }
    }

    /// Roles around the role count.
    fn roles(&mut self, roles: u16) {
        for kind in [7, 8] {
            let draft = Draft::random(roles, 9, &mut self.random);
            let term = self.random.pick(&draft.terms()).unwrap_or(1);
            for role in [0, roles.saturating_sub(1), roles, roles + 1, roles + 256, 65535] {
                let record = Record::new(kind, role, term, 0);
                if role < roles {
                    self.add_accepted(&draft, record);
                } else {
                    self.add(&draft.bytes(), call_of(record), refused(6, 9));
                }
            }
        }
    }

    /// Two rows that a record meets: the smaller number decides.
    pub fn pairs_of_rows(&mut self) {
        for count in [3, 6, 11, 20] {
            for kind in 1..=9 {
                for one in 4..=6 {
                    for other in one + 1..=7 {
                        self.two_rows(kind, one, other, count);
                    }
                }
            }
        }
    }

    /// A record that meets two rows, where its kind can.
    fn two_rows(&mut self, kind: u8, one: u8, other: u8, count: usize) {
        for _ in 0..4 {
            let draft = self.vocabulary(count);
            let record = draft.valid(kind, &mut self.random);
            let both = record
                .and_then(|r| way(other, r, &draft, count + 1, &mut self.random))
                .filter(can_be_asked)
                .and_then(|r| way(one, r, &draft, count + 1, &mut self.random));
            if let Some(wrong) = both.filter(can_be_asked) {
                self.add(&draft.bytes(), call_of(wrong), refused(one, count));
            }
        }
    }

    /// Row 3: kinds that are no term's, with fields that suit some kind or none. A statement is no term.
    pub fn other_kinds(&mut self) {
        for count in [1, 2, 5, 12, 33, 257] {
            let draft = self.vocabulary(count);
            for kind in OTHER_KINDS {
                let like = self.valid_record(&draft);
                let wrong = self.wrong_record(&draft);
                let statement = draft.valid(9, &mut self.random).unwrap_or(like);
                for record in [like, statement, wrong] {
                    let [a, b, _] = record.fields;
                    if count < 100 || self.random.chance(8) {
                        self.add(&draft.bytes(), Call::Term { kind, a, b }, refused(3, count));
                    }
                }
            }
        }
    }
}
