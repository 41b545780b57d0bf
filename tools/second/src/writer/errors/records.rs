//! Writers that write the new record in a wrong way, write something else too, or answer another length.

use crate::vocabulary::records::{bytes, Record, RECORD_BYTES};
use crate::writer::file::Call;
use crate::writer::rules::{adding, put, Adding, Answer, Paper, Rules};

/// Writes as the paper says, and puts back what stood in some of the new record's bytes.
fn keeping(buffer: &mut [u8], adding: &Adding, kept: std::ops::Range<usize>) {
    let start = adding.used + kept.start;
    let before = buffer.get(start..adding.used + kept.end).map(<[u8]>::to_vec);
    Paper.write(buffer, adding);
    put(buffer, start, &before.unwrap_or_default());
}

/// The bytes of the new record, changed.
fn record_with(adding: &Adding, change: impl Fn(&mut Record)) -> Vec<u8> {
    let mut record = adding.new;
    change(&mut record);
    bytes(&[record])
}

wrong! {
    "the kind not written" KeepsKind {
        fn write(&self, buffer: &mut [u8], adding: &Adding) {
            keeping(buffer, adding, 0..1);
        }
    }
    "the second byte not written" KeepsSecond {
        fn write(&self, buffer: &mut [u8], adding: &Adding) {
            keeping(buffer, adding, 1..2);
        }
    }
    "A not written" KeepsA {
        fn write(&self, buffer: &mut [u8], adding: &Adding) {
            keeping(buffer, adding, 2..4);
        }
    }
    "B not written" KeepsB {
        fn write(&self, buffer: &mut [u8], adding: &Adding) {
            keeping(buffer, adding, 4..6);
        }
    }
    "B not written where it is not used" KeepsUnusedB {
        fn write(&self, buffer: &mut [u8], adding: &Adding) {
            if adding.new.kind <= 4 { keeping(buffer, adding, 4..6) } else { Paper.write(buffer, adding) }
        }
    }
    "A's high byte not written" KeepsHighA {
        fn write(&self, buffer: &mut [u8], adding: &Adding) {
            keeping(buffer, adding, 3..4);
        }
    }
    "B's high byte not written" KeepsHighB {
        fn write(&self, buffer: &mut [u8], adding: &Adding) {
            keeping(buffer, adding, 5..6);
        }
    }
    "next not written" KeepsNext {
        fn write(&self, buffer: &mut [u8], adding: &Adding) {
            keeping(buffer, adding, 6..8);
        }
    }
    "next of a term not written" KeepsTermNext {
        fn write(&self, buffer: &mut [u8], adding: &Adding) {
            if adding.as_term { keeping(buffer, adding, 6..8) } else { Paper.write(buffer, adding) }
        }
    }
    "next of a statement not written" KeepsStatementNext {
        fn write(&self, buffer: &mut [u8], adding: &Adding) {
            if adding.as_term { Paper.write(buffer, adding) } else { keeping(buffer, adding, 6..8) }
        }
    }
    "next's high byte not written" KeepsHighNext {
        fn write(&self, buffer: &mut [u8], adding: &Adding) {
            keeping(buffer, adding, 7..8);
        }
    }
    "second byte 1" SecondOne {
        fn record(&self, adding: &Adding) -> Vec<u8> {
            record_with(adding, |record| record.second = 1)
        }
    }
    "next of a statement is its own number" NextOwn {
        fn record(&self, adding: &Adding) -> Vec<u8> {
            record_with(adding, |record| record.fields[2] = if adding.as_term { 0 } else { adding.number() })
        }
    }
    "next of a statement is the number after it" NextLater {
        fn record(&self, adding: &Adding) -> Vec<u8> {
            record_with(adding, |record| record.fields[2] = if adding.as_term { 0 } else { adding.number() + 1 })
        }
    }
    "A high byte first" SwappedA {
        fn record(&self, adding: &Adding) -> Vec<u8> {
            record_with(adding, |record| record.fields[0] = record.fields[0].swap_bytes())
        }
    }
    "B high byte first" SwappedB {
        fn record(&self, adding: &Adding) -> Vec<u8> {
            record_with(adding, |record| record.fields[1] = record.fields[1].swap_bytes())
        }
    }
    "A cut to eight bits" CutA {
        fn record(&self, adding: &Adding) -> Vec<u8> {
            record_with(adding, |record| record.fields[0] &= 255)
        }
    }
    "B cut to eight bits" CutB {
        fn record(&self, adding: &Adding) -> Vec<u8> {
            record_with(adding, |record| record.fields[1] &= 255)
        }
    }
    "A and B in each other's place" Exchanged {
        fn record(&self, adding: &Adding) -> Vec<u8> {
            record_with(adding, |record| record.fields.swap(0, 1))
        }
    }
    "A and B of a statement in each other's place" ExchangedStatement {
        fn record(&self, adding: &Adding) -> Vec<u8> {
            record_with(adding, |record| if !adding.as_term { record.fields.swap(0, 1) })
        }
    }
    "B of a statement is its A" SameOperands {
        fn record(&self, adding: &Adding) -> Vec<u8> {
            record_with(adding, |record| if !adding.as_term { record.fields[1] = record.fields[0] })
        }
    }
    "bytes behind the record cleared" ClearsBehind {
        fn write(&self, buffer: &mut [u8], adding: &Adding) {
            Paper.write(buffer, adding);
            let behind = buffer.iter_mut().skip(adding.used + RECORD_BYTES);
            behind.for_each(|byte| *byte = 0);
        }
    }
    "eight bytes behind the record cleared" ClearsEight {
        fn write(&self, buffer: &mut [u8], adding: &Adding) {
            Paper.write(buffer, adding);
            put(buffer, adding.used + RECORD_BYTES, &[0; RECORD_BYTES]);
        }
    }
    "the byte behind the record cleared" ClearsOne {
        fn write(&self, buffer: &mut [u8], adding: &Adding) {
            Paper.write(buffer, adding);
            put(buffer, adding.used + RECORD_BYTES, &[0]);
        }
    }
    "the record at the buffer's end" AtTheEnd {
        fn write(&self, buffer: &mut [u8], adding: &Adding) {
            let end = buffer.len() - RECORD_BYTES;
            put(buffer, end, &self.record(adding));
            if self.is_linked(adding) {
                self.link(buffer, adding);
            }
            if self.is_counted(adding) {
                self.count(buffer, adding);
            }
        }
    }
    "nothing written" WritesNothing {
        fn write(&self, _: &mut [u8], _: &Adding) {}
    }
    "the old length answered" OldLength {
        fn length(&self, adding: &Adding) -> usize {
            adding.used
        }
    }
    "the record count answered" CountAnswered {
        fn length(&self, adding: &Adding) -> usize {
            adding.count() + 1
        }
    }
    "the record's number answered" NumberAnswered {
        fn length(&self, adding: &Adding) -> usize {
            adding.count()
        }
    }
    "the buffer's length answered" BufferAnswered {
        fn length(&self, adding: &Adding) -> usize {
            adding.used + adding.free
        }
    }
    "the length answered in eleven bits" LengthCut {
        fn length(&self, adding: &Adding) -> usize {
            (adding.used + RECORD_BYTES) & 2047
        }
    }
    "the record written where it is refused" WritesRefused {
        fn add(&self, buffer: &mut [u8], used: u64, call: Call) -> Answer {
            on_own(buffer, used, call, |buffer, adding| put(buffer, adding.used, &Paper.record(adding)))
        }
    }
    "the link written where the record is refused" LinksRefused {
        fn add(&self, buffer: &mut [u8], used: u64, call: Call) -> Answer {
            on_own(buffer, used, call, |buffer, adding| if !adding.as_term { Paper.link(buffer, adding) })
        }
    }
    "the link written where there is no room" LinksWithoutRoom {
        fn add(&self, buffer: &mut [u8], used: u64, call: Call) -> Answer {
            let answer = Paper.add(buffer, used, call);
            if answer.is_err_and(|refusal| refusal.number == 27) {
                let adding = adding(buffer, used as usize, call);
                if !adding.as_term {
                    Paper.link(buffer, &adding);
                }
            }
            answer
        }
    }
    "what fits of the record written where there is no room" FitsWithoutRoom {
        fn add(&self, buffer: &mut [u8], used: u64, call: Call) -> Answer {
            let answer = Paper.add(buffer, used, call);
            if answer.is_err_and(|refusal| refusal.number == 27) {
                let adding = adding(buffer, used as usize, call);
                put(buffer, adding.used, &Paper.record(&adding));
            }
            answer
        }
    }
    "free bytes cleared where the record is refused" ClearsRefused {
        fn add(&self, buffer: &mut [u8], used: u64, call: Call) -> Answer {
            on_own(buffer, used, call, |buffer, adding| put(buffer, adding.used, &[0; RECORD_BYTES]))
        }
    }
}

/// Adds as the paper says, and does something more where the new record's own rows refuse it.
pub fn on_own(buffer: &mut [u8], used: u64, call: Call, more: impl Fn(&mut [u8], &Adding)) -> Answer {
    let answer = Paper.add(buffer, used, call);
    let adding = adding(buffer, usize::try_from(used).unwrap_or(0), call);
    let accepted = Paper.read(buffer, adding.used).is_ok() && Paper.room(&adding).is_ok();
    if answer.is_err() && accepted {
        more(buffer, &adding);
    }
    answer
}
