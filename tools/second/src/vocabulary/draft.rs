//! Vocabularies in the making: records are pushed one after the other, then chained.

use crate::random::Random;
use crate::vocabulary::records::{at, bytes, uses, Record, Use, A, B};

/// The kinds with which a draft starts, so that terms, names, roles and statements soon stand.
const FIRST_KINDS: [u8; 10] = [3, 9, 3, 5, 3, 7, 9, 4, 8, 6];

/// The records of a vocabulary that is being made, header included.
#[derive(Clone)]
pub struct Draft {
    /// The records.
    pub records: Vec<Record>,
}

impl Draft {
    /// A header alone.
    pub fn new(roles: u16) -> Draft {
        Draft {
            records: vec![Record::header(roles)],
        }
    }

    /// A draft of `count` valid records, header included: fixed kinds first, then random ones.
    pub fn random(roles: u16, count: usize, random: &mut Random) -> Draft {
        let mut draft = Draft::new(roles);
        draft.grow(count, random);
        draft
    }

    /// Pushes valid records until there are `count`.
    pub fn grow(&mut self, count: usize, random: &mut Random) {
        while self.records.len() < count {
            let fixed = FIRST_KINDS.get(self.records.len() - 1).copied();
            let kind = fixed.unwrap_or(1 + random.below(9) as u8);
            let record = self.valid(kind, random).or_else(|| self.valid(3, random));
            self.records.extend(record);
        }
    }

    /// A valid record of a kind to push next, or nothing where terms or roles lack for it.
    pub fn valid(&self, kind: u8, random: &mut Random) -> Option<Record> {
        let mut record = Record::new(kind, 0, 0, 0);
        for (field, purpose) in record.fields.iter_mut().zip(uses(kind)?) {
            *field = match purpose {
                Use::Unused | Use::Next => 0,
                Use::Term => random.pick(&self.terms())?,
                Use::Role if self.roles() == 0 => return None,
                Use::Role => random.below(usize::from(self.roles())) as u16,
                Use::Label => self.fresh_label(random),
            };
        }
        Some(record)
    }

    /// A label that no name has yet.
    fn fresh_label(&self, random: &mut Random) -> u16 {
        self.free_label(random.number())
    }

    /// This label, or the next one that no name has yet.
    pub fn free_label(&self, wanted: u16) -> u16 {
        let taken = self.labels();
        let mut label = wanted;
        while taken.contains(&label) {
            label = label.wrapping_add(1);
        }
        label
    }

    /// The number of roles.
    pub fn roles(&self) -> u16 {
        at(&self.records, 0).fields[B]
    }

    /// The numbers of the records for which a test holds, the header left out.
    fn numbers(&self, test: fn(&Record) -> bool) -> Vec<u16> {
        let all = (0..).zip(&self.records).skip(1);
        all.filter(|(_, record)| test(record))
            .map(|(number, _)| number)
            .collect()
    }

    /// The numbers of the terms.
    pub fn terms(&self) -> Vec<u16> {
        self.numbers(Record::is_term)
    }

    /// The numbers of the statements.
    pub fn statements(&self) -> Vec<u16> {
        self.numbers(Record::is_statement)
    }

    /// The labels of the names, in record order.
    pub fn labels(&self) -> Vec<u16> {
        let names = self.records.iter().filter(|record| record.is_name());
        names.map(|name| name.fields[A]).collect()
    }

    /// Chains statements, given by number in rising order. Others keep their next.
    pub fn chain(&mut self, statements: &[u16]) {
        let mut holder = 0;
        for statement in statements {
            self.link(holder, *statement);
            holder = usize::from(*statement);
        }
    }

    /// Chains about half of the statements, and gives the others a next that may stand.
    pub fn chain_random(&mut self, random: &mut Random) {
        let all = self.statements();
        for statement in &all {
            let later: Vec<u16> = all.iter().copied().filter(|s| s > statement).collect();
            if random.chance(2) {
                self.link(usize::from(*statement), random.pick(&later).unwrap_or(0));
            }
        }
        let on: Vec<u16> = all.into_iter().filter(|_| random.chance(2)).collect();
        self.chain(&on);
        if let Some(last) = on.last() {
            self.link(usize::from(*last), 0);
        }
    }

    /// Puts a record in the place of another.
    pub fn set(&mut self, place: usize, record: Record) {
        if let Some(old) = self.records.get_mut(place) {
            *old = record;
        }
    }

    /// Sets the header's A (holder 0) or a statement's next.
    pub fn link(&mut self, holder: usize, next: u16) {
        if let Some(record) = self.records.get_mut(holder) {
            let [first, _, following] = &mut record.fields;
            *(if holder == 0 { first } else { following }) = next;
        }
    }

    /// The bytes of the vocabulary.
    pub fn bytes(&self) -> Vec<u8> {
        bytes(&self.records)
    }
}
