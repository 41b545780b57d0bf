//! Buffers that hold records behind the bytes in use, which count for nothing: labels and terms of them, statements to
//! which the bytes in use link.

use crate::vocabulary::records::{at, bytes, Record, RECORD_BYTES};
use crate::vocabulary::Draft;
use crate::writer::file::Call;
use crate::writer::plan::{call_of, length, refused, Meant, Plan};

/// How many buffers have a longer vocabulary than is in use.
const LONGER: usize = 60;
/// How many of them link past the bytes in use.
const LINKED: usize = 20;

impl Plan {
    /// Beginnings of longer vocabularies.
    pub fn tails(&mut self) {
        for _ in 0..LONGER {
            let all = Draft::random(3, 24, &mut self.random);
            let count = 3 + self.random.below(18);
            let mut in_use = Draft {
                records: all.records.iter().copied().take(count).collect(),
            };
            in_use.chain_random(&mut self.random);
            let tail: Vec<Record> = all.records.iter().copied().skip(count).collect();
            self.with_tail(&in_use, &tail);
        }
        for _ in 0..LINKED {
            self.linked_past();
        }
    }

    /// Additions to a vocabulary behind which records stand: a name with a label of those, an operand among them, the
    /// record that stands there already, and another.
    fn with_tail(&mut self, in_use: &Draft, tail: &[Record]) {
        let count = in_use.records.len();
        let name = tail.iter().copied().find(Record::is_name);
        let later = (count + tail.iter().position(Record::is_term).unwrap_or(0)) as u16;
        let fits = || length(RECORD_BYTES * (count + 1));
        if let Some(name) = name {
            self.push_tail(in_use, tail, call_of(name), fits());
        }
        let [a, b] = [later, 1];
        self.push_tail(in_use, tail, Call::Statement { a, b }, refused(5, count));
        self.push_tail(in_use, tail, Call::Term { kind: 4, a, b: 0 }, refused(5, count));
        let standing = at(tail, 0);
        let fresh = in_use.valid(standing.kind, &mut self.random);
        let statement = in_use.valid(9, &mut self.random);
        for record in fresh.into_iter().chain(statement) {
            self.push_tail(in_use, tail, call_of(record), fits());
        }
        let operands = standing.operands();
        let stands = standing.kind == 3 || (standing.kind < 7 && operands.iter().all(|number| *number < count));
        if stands {
            self.push_tail(in_use, tail, call_of(standing), fits());
        }
    }

    /// Adds a case with records behind the bytes in use.
    fn push_tail(&mut self, in_use: &Draft, tail: &[Record], call: Call, meant: Meant) {
        let vocabulary = in_use.bytes();
        let content = [vocabulary.clone(), bytes(tail)].concat();
        let behind = self.random.pick(&[0, 0, 3, 8]).unwrap_or(0);
        self.push(&content, behind, vocabulary.len() as u64, call, meant);
    }

    /// A vocabulary whose chain leads to a statement behind the bytes in use.
    fn linked_past(&mut self) {
        let mut draft = self.vocabulary(14);
        let statement = draft.statements().first().copied().unwrap_or(0);
        let holder = self.random.pick(&[0, usize::from(statement)]).unwrap_or(0);
        let tail = [Record::new(9, 1, 1, 0), Record::new(3, 77, 0, 0)];
        draft.link(holder, 14);
        let record = self.valid_record(&draft);
        self.push_tail(&draft, &tail, call_of(record), refused(8, holder));
    }
}
