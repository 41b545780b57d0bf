//! The cases of the vocabulary check and the record call, in groups. Where a group is made for one answer, its cases
//! carry it, and `misses` compares it with the vocabulary check.

use crate::cases::{beginning, with_byte};
use crate::random::{Random, Seed};
use crate::vocabulary::call::{check_vocabulary, Refusal};
use crate::vocabulary::draft::Draft;
use crate::vocabulary::editions::other;
use crate::vocabulary::faults::{near_labels, push_fault, right_nexts, way, ways, with, wrong_headers, wrong_nexts};
use crate::vocabulary::file::Case;
use crate::vocabulary::records::{at, Record, A, EDITION_2, RECORD_BYTES};

/// The seed of all random choices in the stored cases.
const SEED: u64 = 20_240_601;

/// Record counts, header included, and places at which a fault is put: first, middle and last.
const SPOTS: [(usize, usize); 9] = [
    (2, 1),
    (3, 2),
    (12, 1),
    (12, 2),
    (12, 6),
    (12, 11),
    (33, 1),
    (33, 17),
    (33, 32),
];

/// The same for the longest vocabularies.
const FULL_SPOTS: [(usize, usize); 4] = [(512, 1), (512, 256), (512, 300), (512, 511)];

/// The answer of the vocabulary check for which a case is made.
pub type Meant = Option<Result<usize, Refusal>>;

/// A case, and the answer for which it is made.
pub struct Planned {
    /// The case.
    pub case: Case,
    /// The answer.
    meant: Meant,
}

/// The cases so far, and the source of random choices.
pub struct Plan {
    /// The cases.
    cases: Vec<Planned>,
    /// The source.
    pub random: Random,
}

/// All cases. What was made later follows what was stored before.
pub fn all(seed: Seed) -> Vec<Planned> {
    let mut plan = before_editions(seed);
    plan.editions();
    plan.cases
}

/// The cases from before edition 2, from which other subjects draw.
pub fn earlier(seed: Seed) -> Vec<Planned> {
    before_editions(seed).cases
}

/// The groups from before edition 2.
fn before_editions(seed: Seed) -> Plan {
    let mut plan = Plan {
        cases: Vec::new(),
        random: Random::new(seed.unwrap_or(SEED)),
    };
    plan.lengths();
    plan.short_inputs();
    plan.headers();
    plan.single_faults();
    plan.full_faults();
    plan.role_counts();
    plan.repeated_labels();
    plan.near_labels();
    plan.chains();
    plan.full_chains();
    plan.pairs_of_places();
    plan.pairs_in_a_record();
    plan.pairs_with_header_and_chain();
    plan.valid();
    plan.full();
    plan.damaged();
    plan.record_calls();
    plan
}

/// What is wrong with the cases, a line for each: the vocabulary check answers otherwise than meant, or the other
/// edition of an accepted vocabulary otherwise.
pub fn misses(planned: &[Planned]) -> Vec<String> {
    let fault = |planned: &Planned| {
        let answer = check_vocabulary(&planned.case.vocabulary);
        let other = answer.map(|_| check_vocabulary(&other(&planned.case.vocabulary)));
        match (planned.meant, other) {
            (Some(meant), _) if meant != answer => Some(format!("is {answer:?}, meant {meant:?}")),
            (_, Ok(other)) if other != answer => Some(format!("is {answer:?}, but {other:?} in the other edition")),
            _ => None,
        }
    };
    let faults = planned.iter().map(fault).enumerate();
    faults
        .filter_map(|(i, fault)| Some(format!("case {i} {}", fault?)))
        .collect()
}

/// The answer that is a refusal.
pub fn refused(number: u8, place: usize) -> Meant {
    Some(Err(Refusal { number, place }))
}

/// The answer to a wrong header: of edition 2 any, since what follows it decides.
fn refused_header(header: Record) -> Meant {
    if header.second == EDITION_2 {
        return None;
    }
    refused(2, 0)
}

/// Record numbers around the ends of a vocabulary and of the number formats.
fn edge_numbers(vocabulary: &[u8]) -> [u32; 7] {
    let count = (vocabulary.len() / RECORD_BYTES) as u32;
    [0, count.saturating_sub(1), count, count + 1, 65535, 65536, u32::MAX]
}

impl Plan {
    /// Adds a case with a record number: mostly one of a record, else an edge.
    pub fn add(&mut self, vocabulary: Vec<u8>, meant: Meant) {
        let count = vocabulary.len() / RECORD_BYTES;
        let number = if self.random.chance(3) {
            self.random.pick(&edge_numbers(&vocabulary)).unwrap_or(0)
        } else {
            self.random.below(count) as u32
        };
        self.cases.push(Planned {
            case: Case { vocabulary, number },
            meant,
        });
    }

    /// Adds a draft for the answer that it is accepted.
    fn add_accepted(&mut self, draft: &Draft) {
        self.add(draft.bytes(), Some(Ok(draft.records.len())));
    }

    /// A valid vocabulary of `count` records, with a random chain.
    pub fn vocabulary(&mut self, count: usize) -> Draft {
        let roles = self.random.pick(&[1, 2, 5, 64]).unwrap_or(1);
        let mut draft = Draft::random(roles, count, &mut self.random);
        draft.chain_random(&mut self.random);
        draft
    }

    /// Row 1 and its edges: too short, too long, no multiple of 8, and 512 and 513 records.
    fn lengths(&mut self) {
        let mut draft = Draft::new(0);
        while draft.records.len() < 1000 {
            let label = draft.records.len() as u16;
            draft.records.push(Record::new(3, label, 0, 0));
        }
        let bytes = draft.bytes();
        for length in [
            0, 1, 7, 9, 12, 15, 17, 100, 4087, 4089, 4095, 4097, 4100, 4104, 4112, 8000,
        ] {
            self.add(beginning(&bytes, length), refused(1, 0));
        }
        for length in [8, 16, 4088, 4096] {
            self.add(beginning(&bytes, length), Some(Ok(length / 8)));
        }
    }

    /// Inputs of every length from 0 to 40 bytes: the start of a vocabulary with up to three
    /// bytes damaged, and random bytes.
    fn short_inputs(&mut self) {
        for length in 0..=40 {
            for round in 0..10 {
                let mut bytes = self.vocabulary(5).bytes();
                bytes.truncate(length);
                for _ in 0..round % 4 {
                    self.damage(&mut bytes);
                }
                self.add(bytes, None);
            }
            let noise: Vec<u8> = (0..length).map(|_| self.random.byte()).collect();
            self.add(noise, None);
        }
    }

    /// Changes a byte at random.
    pub fn damage(&mut self, bytes: &mut [u8]) {
        let at = self.random.below(bytes.len());
        let small = self.random.below(18) as u8;
        let values = [self.random.byte(), small, small, 0, 255];
        let value = self.random.pick(&values).unwrap_or(0);
        if let Some(byte) = bytes.get_mut(at) {
            *byte = value;
        }
    }

    /// Row 2, in vocabularies of several lengths, and the role counts that pass.
    fn headers(&mut self) {
        for count in [1, 2, 9] {
            for header in wrong_headers(5) {
                let mut draft = self.vocabulary(count);
                draft.set(0, header);
                self.add(draft.bytes(), refused_header(header));
            }
            for roles in [0, 1, 63, 64] {
                let draft = Draft::random(roles, count, &mut self.random);
                self.add_accepted(&draft);
            }
        }
    }

    /// Rows 3 to 7: each way to meet each of them, in each kind, at several places.
    fn single_faults(&mut self) {
        for (count, place) in SPOTS {
            for kind in 1..=9 {
                for number in 3..=7 {
                    self.faults_at(kind, number, count, place);
                }
            }
        }
    }

    /// All ways in which a record of a kind meets a refusal at a place.
    fn faults_at(&mut self, kind: u8, number: u8, count: usize, place: usize) {
        let before = Draft::random(5, place, &mut self.random);
        let Some(record) = self.record_for(kind, number, &before) else {
            return;
        };
        for wrong in ways(number, record, &before, count) {
            let draft = self.complete(&before, wrong, count);
            self.add(draft.bytes(), refused(number, place));
        }
    }

    /// A record of a kind to be spoiled. Where no term stands before it, the fields are zero, and
    /// refusals after 5 cannot be met.
    fn record_for(&mut self, kind: u8, number: u8, before: &Draft) -> Option<Record> {
        let blank = (number <= 5).then_some(Record::new(kind, 0, 0, 0));
        before.valid(kind, &mut self.random).or(blank)
    }

    /// The draft with a record pushed, and then valid ones up to `count`, chained at random.
    fn complete(&mut self, before: &Draft, record: Record, count: usize) -> Draft {
        let mut draft = before.clone();
        draft.records.push(record);
        draft.grow(count, &mut self.random);
        draft.chain_random(&mut self.random);
        draft.set(before.records.len(), record);
        draft
    }

    /// Rows 3 to 7 once in the longest vocabularies.
    fn full_faults(&mut self) {
        for (count, place) in FULL_SPOTS {
            for (number, kind) in [(3, 5), (4, 7), (5, 9), (6, 8), (7, 3)] {
                let before = Draft::random(64, place, &mut self.random);
                let Some(record) = before.valid(kind, &mut self.random) else {
                    continue;
                };
                if let Some(wrong) = way(number, record, &before, count, &mut self.random) {
                    let draft = self.complete(&before, wrong, count);
                    self.add(draft.bytes(), refused(number, place));
                }
            }
        }
    }

    /// Row 6 and the roles that pass, for several role counts.
    fn role_counts(&mut self) {
        for roles in [0, 1, 2, 5, 64] {
            for kind in [7, 8] {
                for place in [2, 5, 11] {
                    self.roles_at(roles, kind, place);
                }
            }
        }
    }

    /// Roles around the role count, in a record of 12.
    fn roles_at(&mut self, roles: u16, kind: u8, place: usize) {
        for role in [0, roles.saturating_sub(1), roles, roles + 1, roles + 256, 65535] {
            let before = Draft::random(roles, place, &mut self.random);
            let term = self.random.pick(&before.terms()).unwrap_or(1);
            let draft = self.complete(&before, Record::new(kind, role, term, 0), 12);
            let meant = if role < roles { Some(Ok(12)) } else { refused(6, place) };
            self.add(draft.bytes(), meant);
        }
    }

    /// Row 7: each name of a vocabulary with the label of each name before it.
    fn repeated_labels(&mut self) {
        let names = [1, 3, 5, 10, 11, 12];
        let mut draft = Draft::random(5, 10, &mut self.random);
        for wanted in [0, 258, 65535] {
            let label = draft.free_label(wanted);
            draft.records.push(Record::new(3, label, 0, 0));
        }
        for (i, name) in names.iter().enumerate() {
            for earlier in names.iter().take(i) {
                let mut wrong = draft.clone();
                wrong.set(*name, at(&draft.records, *earlier));
                self.add(wrong.bytes(), refused(7, *name));
            }
        }
    }

    /// Labels near to refusal 7 that pass.
    fn near_labels(&mut self) {
        let before = Draft::random(5, 11, &mut self.random);
        for name in near_labels(&before) {
            let draft = self.complete(&before, name, 14);
            self.add_accepted(&draft);
        }
    }

    /// Row 8: every wrong next and every right one, of the header and of each statement.
    fn chains(&mut self) {
        for count in [1, 2, 4, 14, 14, 25] {
            let mut draft = self.vocabulary(count);
            if count > 2 {
                draft.set(count - 1, Record::new(9, 1, 1, 0));
            }
            let holders = draft.statements();
            for holder in std::iter::once(0).chain(holders.into_iter().map(usize::from)) {
                self.nexts_of(&draft, holder);
            }
        }
    }

    /// Every wrong next and every right one of a holder.
    fn nexts_of(&mut self, draft: &Draft, holder: usize) {
        for next in wrong_nexts(draft, holder) {
            let mut wrong = draft.clone();
            wrong.link(holder, next);
            self.add(wrong.bytes(), refused(8, holder));
        }
        for next in right_nexts(draft, holder) {
            let mut right = draft.clone();
            right.link(holder, next);
            self.add_accepted(&right);
        }
    }

    /// Row 8 in the longest vocabularies: at the header, a middle statement and the last record.
    fn full_chains(&mut self) {
        let mut draft = self.vocabulary(511);
        draft.records.push(Record::new(9, 1, 1, 0));
        let statements = draft.statements();
        let middle = statements
            .get(statements.len() / 2)
            .map_or(0, |number| usize::from(*number));
        for holder in [0, middle, 511] {
            for next in [1, 512, 65535] {
                let mut wrong = draft.clone();
                wrong.link(holder, next);
                self.add(wrong.bytes(), refused(8, holder));
            }
        }
    }

    /// Two faults of rows 3 to 7 at two places: the first place decides.
    fn pairs_of_places(&mut self) {
        for (first, second) in [(2, 3), (3, 5), (6, 13), (12, 13)] {
            for one in 3..=7 {
                for other in 3..=7 {
                    self.two_faults((first, one), (second, other));
                }
            }
        }
    }

    /// A vocabulary of 14 records with a fault at each of two places.
    fn two_faults(&mut self, first: (usize, u8), second: (usize, u8)) {
        let mut draft = Draft::random(5, first.0, &mut self.random);
        push_fault(first.1, &mut draft, 14, &mut self.random);
        draft.grow(second.0, &mut self.random);
        push_fault(second.1, &mut draft, 14, &mut self.random);
        draft.grow(14, &mut self.random);
        self.add(draft.bytes(), refused(first.1, first.0));
    }

    /// Two faults of rows 3 to 7 in one record: the smaller number decides.
    fn pairs_in_a_record(&mut self) {
        for place in [3, 6, 11] {
            for kind in 1..=9 {
                for one in 3..=6 {
                    for other in one + 1..=7 {
                        self.two_in_one(kind, one, other, place);
                    }
                }
            }
        }
    }

    /// A record that meets two refusals, where its kind can.
    fn two_in_one(&mut self, kind: u8, one: u8, other: u8, place: usize) {
        let before = Draft::random(5, place, &mut self.random);
        let record = before.valid(kind, &mut self.random);
        let both = record
            .and_then(|r| way(other, r, &before, 12, &mut self.random))
            .and_then(|r| way(one, r, &before, 12, &mut self.random));
        if let Some(wrong) = both {
            let draft = self.complete(&before, wrong, 12);
            self.add(draft.bytes(), refused(one, place));
        }
    }

    /// Row 1 comes before all, row 2 before 3 to 8, rows 3 to 7 at every record before 8, and
    /// within 8 the header before statements, and these in record order.
    fn pairs_with_header_and_chain(&mut self) {
        for number in 3..=7 {
            for place in [3, 6, 13] {
                let mut draft = Draft::random(5, place, &mut self.random);
                push_fault(number, &mut draft, 14, &mut self.random);
                draft.grow(14, &mut self.random);
                self.spoil_chain(&draft, refused(number, place));
                self.spoil_header(&draft);
            }
        }
        for _ in 0..8 {
            let draft = self.vocabulary(14);
            self.spoil_header(&draft);
            self.two_wrong_nexts(&draft);
        }
    }

    /// The draft with a wrong A of the header, and with a wrong next of each of its first two
    /// statements.
    fn spoil_chain(&mut self, draft: &Draft, meant: Meant) {
        for holder in [0, 2, 7] {
            let mut wrong = draft.clone();
            if holder == 0 || at(&draft.records, holder).is_statement() {
                wrong.link(holder, 1);
                self.add(wrong.bytes(), meant);
            }
        }
    }

    /// The draft with a wrong header, and the same with a byte too many.
    fn spoil_header(&mut self, draft: &Draft) {
        let header = self.random.pick(&wrong_headers(5)).unwrap_or(Record::header(65));
        let mut wrong = draft.clone();
        wrong.set(0, with(header, A, self.random.number()));
        let mut bytes = wrong.bytes();
        self.add(bytes.clone(), refused_header(header));
        bytes.push(0);
        self.add(bytes, refused(1, 0));
    }

    /// A wrong next at two holders out of three: the header and two statements.
    fn two_wrong_nexts(&mut self, draft: &Draft) {
        for (first, second) in [(0, 2), (0, 7), (2, 7)] {
            let mut wrong = draft.clone();
            let one = self.random.pick(&wrong_nexts(draft, first)).unwrap_or(1);
            let other = self.random.pick(&wrong_nexts(draft, second)).unwrap_or(1);
            wrong.link(first, one);
            wrong.link(second, other);
            self.add(wrong.bytes(), refused(8, first));
        }
    }

    /// Random valid vocabularies of 1 to 60 records.
    fn valid(&mut self) {
        for count in 1..=60 {
            for _ in 0..4 {
                let draft = self.vocabulary(count);
                self.add_accepted(&draft);
            }
        }
    }

    /// Vocabularies of 511, 512 and 513 records of mixed kinds, and one of 511 names of which the
    /// last repeats a label.
    fn full(&mut self) {
        for count in [511, 512, 512, 512] {
            let draft = self.vocabulary(count);
            self.add_accepted(&draft);
        }
        let over = self.vocabulary(513);
        self.add(over.bytes(), refused(1, 0));
        for repeated in [1, 250, 510] {
            let names = (1..511).map(|label| Record::new(3, label * 100, 0, 0));
            let mut draft = Draft::new(64);
            draft.records.extend(names);
            draft.records.push(Record::new(3, repeated * 100, 0, 0));
            self.add(draft.bytes(), refused(7, 511));
        }
    }

    /// Valid vocabularies with one byte damaged: each byte of two, and random ones.
    fn damaged(&mut self) {
        for count in [11, 13] {
            let bytes = self.vocabulary(count).bytes();
            for (place, byte) in bytes.iter().enumerate() {
                for value in [byte ^ 1, byte.wrapping_add(1), 0, 255, self.random.byte()] {
                    self.add(with_byte(&bytes, place, value), None);
                }
            }
        }
        for _ in 0..600 {
            let count = 2 + self.random.below(30);
            self.add_damaged(count);
        }
        for _ in 0..16 {
            self.add_damaged(512);
        }
    }

    /// A valid vocabulary of `count` records with one byte damaged.
    fn add_damaged(&mut self, count: usize) {
        let mut bytes = self.vocabulary(count).bytes();
        self.damage(&mut bytes);
        self.add(bytes, None);
    }

    /// The record call at the edge numbers: on accepted vocabularies, on ones that each of rows 2
    /// to 8 refuses, and on lengths that row 1 refuses.
    fn record_calls(&mut self) {
        for count in [1, 2, 10, 256, 257, 512, 513, 600] {
            let bytes = self.vocabulary(count).bytes();
            self.add_edges(bytes);
        }
        for length in [0, 1, 7, 9, 15, 79, 81] {
            let mut bytes = self.vocabulary(12).bytes();
            bytes.truncate(length);
            self.add_edges(bytes);
        }
        for number in 3..=7 {
            let mut draft = Draft::random(5, 6, &mut self.random);
            push_fault(number, &mut draft, 9, &mut self.random);
            draft.grow(9, &mut self.random);
            self.add_edges(draft.bytes());
        }
        let mut draft = self.vocabulary(9);
        draft.link(0, 1);
        self.add_edges(draft.bytes());
        draft.set(
            0,
            Record {
                kind: 0,
                ..at(&draft.records, 0)
            },
        );
        self.add_edges(draft.bytes());
    }

    /// A vocabulary with each of the edge numbers, and some numbers of its records.
    pub fn add_edges(&mut self, vocabulary: Vec<u8>) {
        let count = vocabulary.len() / RECORD_BYTES;
        let mut numbers = edge_numbers(&vocabulary).to_vec();
        numbers.extend((0..2).map(|_| self.random.below(count) as u32));
        for number in numbers {
            let case = Case {
                vocabulary: vocabulary.clone(),
                number,
            };
            self.cases.push(Planned { case, meant: None });
        }
    }
}
