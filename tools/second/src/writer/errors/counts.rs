//! Writers that keep the header's k in a wrong way, or the edition.

use crate::vocabulary::records::{at, records};
use crate::vocabulary::{refuse_if, Refusal};
use crate::writer::errors::records::on_own;
use crate::writer::file::Call;
use crate::writer::rules::{adding, put, Adding, Answer, Paper, Rules, COUNT_PLACE};

/// Where the header's second byte lies.
const SECOND: usize = 1;
/// Where its A lies.
const A_PLACE: usize = 2;
/// Where its B lies.
const B_PLACE: usize = 4;

/// Adds as the paper says, and does something more where a record was added.
fn after(buffer: &mut [u8], adding: &Adding, more: impl Fn(&mut [u8])) {
    Paper.write(buffer, adding);
    more(buffer);
}

/// Whether k changes where only some kinds of atoms count.
fn counted_but(adding: &Adding, left_out: u8) -> bool {
    Paper.is_counted(adding) && adding.new.kind != left_out
}

/// How many records of some kinds there are with the new one.
fn number_of(adding: &Adding, kinds: &[u8]) -> u16 {
    let all = adding.with_new();
    all.iter().filter(|record| kinds.contains(&record.kind)).count() as u16
}

wrong! {
    "k not raised" NotRaised {
        fn is_counted(&self, _: &Adding) -> bool {
            false
        }
    }
    "k not raised by a name" NotByName {
        fn is_counted(&self, adding: &Adding) -> bool {
            counted_but(adding, 3)
        }
    }
    "k not raised by kind 7" NotBySome {
        fn is_counted(&self, adding: &Adding) -> bool {
            counted_but(adding, 7)
        }
    }
    "k not raised by kind 8" NotByAll {
        fn is_counted(&self, adding: &Adding) -> bool {
            counted_but(adding, 8)
        }
    }
    "k raised by names alone" ByNames {
        fn is_counted(&self, adding: &Adding) -> bool {
            Paper.is_counted(adding) && adding.new.kind == 3
        }
    }
    "k raised by every term" ByTerms {
        fn is_counted(&self, adding: &Adding) -> bool {
            adding.holds_count() && adding.as_term
        }
    }
    "k raised by a statement" ByStatements {
        fn is_counted(&self, adding: &Adding) -> bool {
            Paper.is_counted(adding) || (adding.holds_count() && !adding.as_term)
        }
    }
    "k raised while there are up to 12 atoms" UpTo12 {
        fn is_counted(&self, adding: &Adding) -> bool {
            Paper.is_counted(adding) && adding.held() < 13
        }
    }
    "k raised as far as 255" UpTo255 {
        fn is_counted(&self, adding: &Adding) -> bool {
            Paper.is_counted(adding) && adding.held() < 255
        }
    }
    "k raised where there is a statement alone" WithStatements {
        fn is_counted(&self, adding: &Adding) -> bool {
            Paper.is_counted(adding) && at(&adding.records, 0).fields[0] != 0
        }
    }
    "next of edition 1 raised" FirstRaised {
        fn is_counted(&self, adding: &Adding) -> bool {
            adding.new.is_atom()
        }
    }
    "next of edition 1 made k" FirstCounted {
        fn write(&self, buffer: &mut [u8], adding: &Adding) {
            let k = number_of(adding, &[3, 7, 8]);
            after(buffer, adding, |buffer| put(buffer, COUNT_PLACE, &k.to_le_bytes()));
        }
    }
    "edition 1 turned into edition 2" FirstTurned {
        fn write(&self, buffer: &mut [u8], adding: &Adding) {
            let k = number_of(adding, &[3, 7, 8]);
            after(buffer, adding, |buffer| {
                put(buffer, SECOND, &[2]);
                put(buffer, COUNT_PLACE, &k.to_le_bytes());
            });
        }
    }
    "edition 2 turned into edition 1" SecondTurned {
        fn write(&self, buffer: &mut [u8], adding: &Adding) {
            after(buffer, adding, |buffer| {
                put(buffer, SECOND, &[1]);
                put(buffer, COUNT_PLACE, &[0, 0]);
            });
        }
    }
    "k written into A" IntoA {
        fn count(&self, buffer: &mut [u8], adding: &Adding) {
            put(buffer, A_PLACE, &self.raised(adding).to_le_bytes());
        }
    }
    "k written into B" IntoB {
        fn count(&self, buffer: &mut [u8], adding: &Adding) {
            put(buffer, B_PLACE, &self.raised(adding).to_le_bytes());
        }
    }
    "k written into the new record's next" IntoNew {
        fn count(&self, buffer: &mut [u8], adding: &Adding) {
            put(buffer, adding.used + COUNT_PLACE, &self.raised(adding).to_le_bytes());
        }
    }
    "k written into the new record's next too" IntoBoth {
        fn count(&self, buffer: &mut [u8], adding: &Adding) {
            Paper.count(buffer, adding);
            put(buffer, adding.used + COUNT_PLACE, &self.raised(adding).to_le_bytes());
        }
    }
    "k's low byte alone written" LowByte {
        fn count(&self, buffer: &mut [u8], adding: &Adding) {
            let [low, _] = self.raised(adding).to_le_bytes();
            put(buffer, COUNT_PLACE, &[low]);
        }
    }
    "k's high byte cleared" HighCleared {
        fn raised(&self, adding: &Adding) -> u16 {
            Paper.raised(adding) & 255
        }
    }
    "k high byte first" Swapped {
        fn count(&self, buffer: &mut [u8], adding: &Adding) {
            put(buffer, COUNT_PLACE, &self.raised(adding).to_be_bytes());
        }
    }
    "k raised by two" ByTwo {
        fn raised(&self, adding: &Adding) -> u16 {
            adding.held().wrapping_add(2)
        }
    }
    "k lowered" Lowered {
        fn raised(&self, adding: &Adding) -> u16 {
            adding.held().wrapping_sub(1)
        }
    }
    "k made the number of names" OfNames {
        fn raised(&self, adding: &Adding) -> u16 {
            number_of(adding, &[3])
        }
    }
    "k made the number of terms" OfTerms {
        fn raised(&self, adding: &Adding) -> u16 {
            number_of(adding, &[1, 2, 3, 4, 5, 6, 7, 8])
        }
    }
    "k made the new record's number" OfRecords {
        fn raised(&self, adding: &Adding) -> u16 {
            adding.number()
        }
    }
    "k counted anew over the whole buffer" OfBuffer {
        fn count(&self, buffer: &mut [u8], _: &Adding) {
            let all = records(buffer);
            let k = all.iter().filter(|record| record.is_atom()).count() as u16;
            put(buffer, COUNT_PLACE, &k.to_le_bytes());
        }
    }
    "k cleared by a statement" ClearedByStatement {
        fn write(&self, buffer: &mut [u8], adding: &Adding) {
            after(buffer, adding, |buffer| if !adding.as_term {
                put(buffer, COUNT_PLACE, &[0, 0]);
            });
        }
    }
    "k raised where the record is refused" RaisedRefused {
        fn add(&self, buffer: &mut [u8], used: u64, call: Call) -> Answer {
            on_own(buffer, used, call, |buffer, adding| if Paper.is_counted(adding) { Paper.count(buffer, adding) })
        }
    }
    "k raised where there is no room" RaisedWithoutRoom {
        fn add(&self, buffer: &mut [u8], used: u64, call: Call) -> Answer {
            let answer = Paper.add(buffer, used, call);
            if answer.is_err_and(|refusal| refusal.number == 27) {
                let adding = adding(buffer, used as usize, call);
                if Paper.is_counted(&adding) {
                    Paper.count(buffer, &adding);
                }
            }
            answer
        }
    }
    "k put right where it is wrong" PutRight {
        fn add(&self, buffer: &mut [u8], used: u64, call: Call) -> Answer {
            let answer = Paper.add(buffer, used, call);
            if let Err(refusal) = answer {
                if refusal.number == 28 {
                    put(buffer, COUNT_PLACE, &(refusal.place as u16).to_le_bytes());
                    return Paper.add(buffer, used, call);
                }
            }
            answer
        }
    }
    "28 for the new record" CountOfNew {
        fn own(&self, adding: &Adding) -> Result<(), Refusal> {
            Paper.own(adding)?;
            let place = usize::from(number_of(adding, &[3, 7, 8]));
            refuse_if(Paper.is_counted(adding), 28, place)
        }
    }
    "the header's k taken for a statement's link" HeldAsLink {
        fn link(&self, buffer: &mut [u8], adding: &Adding) {
            Paper.link(buffer, adding);
            if adding.holds_count() {
                put(buffer, COUNT_PLACE, &adding.number().to_le_bytes());
            }
        }
    }
}
