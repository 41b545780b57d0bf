//! Writers that link a new statement in a wrong way.

use crate::vocabulary::chain;
use crate::vocabulary::records::{at, bytes, Record, RECORD_BYTES};
use crate::writer::rules::{link_place, put, Adding, Paper, Rules};

/// The last statement for which a test holds, or the header.
fn last_statement(records: &[Record], test: impl Fn(&Record) -> bool) -> usize {
    let last = records.iter().rposition(|record| record.is_statement() && test(record));
    last.unwrap_or(0)
}

/// The end of the chain, followed so far that a test holds of the number of statements before it.
fn followed(records: &[Record], goes_on: impl Fn(usize, u16) -> bool) -> usize {
    let on = chain(records).into_iter().enumerate();
    let on = on.take_while(|(before, statement)| goes_on(*before, *statement));
    on.last().map_or(0, |(_, statement)| usize::from(statement))
}

wrong! {
    "linked from the last statement of the file" FromLast {
        fn holder(&self, records: &[Record]) -> usize {
            last_statement(records, |_| true)
        }
    }
    "linked from the last statement with next 0" FromLastEnd {
        fn holder(&self, records: &[Record]) -> usize {
            last_statement(records, |statement| statement.fields[2] == 0)
        }
    }
    "linked from the first statement with next 0" FromFirstEnd {
        fn holder(&self, records: &[Record]) -> usize {
            let first = records.iter().position(|record| record.is_statement() && record.fields[2] == 0);
            first.unwrap_or(0)
        }
    }
    "linked from the last record" FromRecord {
        fn holder(&self, records: &[Record]) -> usize {
            records.len() - 1
        }
    }
    "linked from the header always" FromHeader {
        fn holder(&self, _: &[Record]) -> usize {
            0
        }
    }
    "linked from the first statement on the chain" FromFirst {
        fn holder(&self, records: &[Record]) -> usize {
            usize::from(at(records, 0).fields[0])
        }
    }
    "linked from the last but one on the chain" FromLastButOne {
        fn holder(&self, records: &[Record]) -> usize {
            let on = chain(records);
            on.iter().rev().nth(1).map_or(0, |statement| usize::from(*statement))
        }
    }
    "linked first, before the chain" Turned {
        fn record(&self, adding: &Adding) -> Vec<u8> {
            let first = at(&adding.records, 0).fields[0];
            let next = if adding.as_term { 0 } else { first };
            bytes(&[Record { fields: [adding.new.fields[0], adding.new.fields[1], next], ..adding.new }])
        }
        fn holder(&self, _: &[Record]) -> usize {
            0
        }
    }
    "linked in second place" Second {
        fn record(&self, adding: &Adding) -> Vec<u8> {
            let first = usize::from(at(&adding.records, 0).fields[0]);
            let next = if adding.as_term || first == 0 { 0 } else { at(&adding.records, first).fields[2] };
            bytes(&[Record { fields: [adding.new.fields[0], adding.new.fields[1], next], ..adding.new }])
        }
        fn holder(&self, records: &[Record]) -> usize {
            usize::from(at(records, 0).fields[0])
        }
    }
    "not linked" NotLinked {
        fn is_linked(&self, _: &Adding) -> bool {
            false
        }
    }
    "not linked where the chain is empty" EmptyNotLinked {
        fn is_linked(&self, adding: &Adding) -> bool {
            !adding.as_term && !chain(&adding.records).is_empty()
        }
    }
    "linked where the chain is empty alone" OnlyEmptyLinked {
        fn is_linked(&self, adding: &Adding) -> bool {
            !adding.as_term && chain(&adding.records).is_empty()
        }
    }
    "terms linked too" TermsLinked {
        fn is_linked(&self, _: &Adding) -> bool {
            true
        }
    }
    "linked from every statement with next 0" FromAll {
        fn link(&self, buffer: &mut [u8], adding: &Adding) {
            Paper.link(buffer, adding);
            for (holder, record) in adding.records.iter().enumerate() {
                if record.is_statement() && record.fields[2] == 0 {
                    put(buffer, link_place(holder), &adding.number().to_le_bytes());
                }
            }
        }
    }
    "statements off the chain chained first" AllChained {
        fn link(&self, buffer: &mut [u8], adding: &Adding) {
            let mut holder = 0;
            let numbers = adding.records.iter().enumerate().filter(|(_, record)| record.is_statement());
            for number in numbers.map(|(number, _)| number).chain([adding.count()]) {
                put(buffer, link_place(holder), &(number as u16).to_le_bytes());
                holder = number;
            }
        }
    }
    "link's high byte not written" LinkLow {
        fn link(&self, buffer: &mut [u8], adding: &Adding) {
            let [low, _] = adding.number().to_le_bytes();
            put(buffer, link_place(self.holder(&adding.records)), &[low]);
        }
    }
    "link high byte first" LinkSwapped {
        fn link(&self, buffer: &mut [u8], adding: &Adding) {
            put(buffer, link_place(self.holder(&adding.records)), &adding.number().to_be_bytes());
        }
    }
    "link is the length" LinkLength {
        fn link(&self, buffer: &mut [u8], adding: &Adding) {
            put(buffer, link_place(self.holder(&adding.records)), &(adding.used as u16).to_le_bytes());
        }
    }
    "link is the number after it" LinkLater {
        fn link(&self, buffer: &mut [u8], adding: &Adding) {
            put(buffer, link_place(self.holder(&adding.records)), &(adding.number() + 1).to_le_bytes());
        }
    }
    "link written into the header's next" LinkNext {
        fn link(&self, buffer: &mut [u8], adding: &Adding) {
            let holder = self.holder(&adding.records);
            put(buffer, RECORD_BYTES * holder + 6, &adding.number().to_le_bytes());
        }
    }
    "link written into the statement's A" LinkA {
        fn link(&self, buffer: &mut [u8], adding: &Adding) {
            let holder = self.holder(&adding.records);
            put(buffer, RECORD_BYTES * holder + 2, &adding.number().to_le_bytes());
        }
    }
    "link written into the statement's B" LinkB {
        fn link(&self, buffer: &mut [u8], adding: &Adding) {
            let holder = self.holder(&adding.records);
            let place = if holder == 0 { 2 } else { RECORD_BYTES * holder + 4 };
            put(buffer, place, &adding.number().to_le_bytes());
        }
    }
    "the byte before the link cleared" LinkBefore {
        fn link(&self, buffer: &mut [u8], adding: &Adding) {
            Paper.link(buffer, adding);
            put(buffer, link_place(self.holder(&adding.records)) - 1, &[0]);
        }
    }
    "the chain followed for 64 statements" Followed64 {
        fn holder(&self, records: &[Record]) -> usize {
            followed(records, |before, _| before < 64)
        }
    }
    "the chain followed for 255 statements" Followed255 {
        fn holder(&self, records: &[Record]) -> usize {
            followed(records, |before, _| before < 255)
        }
    }
    "the chain followed as far as record 255" Followed255th {
        fn holder(&self, records: &[Record]) -> usize {
            followed(records, |_, statement| statement < 256)
        }
    }
    "the chain followed as far as record 510" Followed510th {
        fn holder(&self, records: &[Record]) -> usize {
            followed(records, |_, statement| statement < 510)
        }
    }
}
