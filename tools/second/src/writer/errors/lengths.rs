//! Writers that are wrong in rows 1 to 8 and 28 of the bytes in use, in row 27, or in their order.

use crate::vocabulary::records::{at, records, Record, RECORD_BYTES};
use crate::vocabulary::{chain, check_vocabulary, refuse_if, Refusal};
use crate::writer::rules::{Adding, Answer, Check, Paper, Rules};

/// Rows 1 to 8 of the bytes in use, where a refusal by some rows is passed over.
fn read_but(buffer: &[u8], used: usize, passed: impl Fn(Refusal) -> bool) -> Result<(), Refusal> {
    let read = Paper.read(buffer, used);
    read.or_else(|refusal| if passed(refusal) { Ok(()) } else { Err(refusal) })
}

/// The refusal of row 1.
const ONE: Refusal = Refusal { number: 1, place: 0 };

wrong! {
    "a length past the buffer is 27" PastIs27 {
        fn in_use(&self, length: usize, used: u64) -> Answer {
            Paper.in_use(length, used).map_err(|_| Refusal { number: 27, place: length / RECORD_BYTES })
        }
    }
    "a length past the buffer is 27, place 0" PastIs27At0 {
        fn in_use(&self, length: usize, used: u64) -> Answer {
            Paper.in_use(length, used).map_err(|_| Refusal { number: 27, place: 0 })
        }
    }
    "a length past the buffer is cut to the buffer" PastIsCut {
        fn in_use(&self, length: usize, used: u64) -> Answer {
            Ok(usize::try_from(used).map_or(length, |used| used.min(length)))
        }
    }
    "the place of a length past the buffer is the length" PastAtLength {
        fn in_use(&self, length: usize, used: u64) -> Answer {
            Paper.in_use(length, used).map_err(|_| Refusal { number: 1, place: used as u32 as usize })
        }
    }
    "a length of which the last record is past the buffer is let in" PastByLess {
        fn in_use(&self, length: usize, used: u64) -> Answer {
            let past = used > length as u64 && used < length as u64 + 8;
            if past { Ok(length - length % RECORD_BYTES) } else { Paper.in_use(length, used) }
        }
    }
    "the length is cut to 32 bits" Cut32 {
        fn in_use(&self, length: usize, used: u64) -> Answer {
            Paper.in_use(length, used & 0xffff_ffff)
        }
    }
    "the length is cut to 16 bits" Cut16 {
        fn in_use(&self, length: usize, used: u64) -> Answer {
            Paper.in_use(length, used & 0xffff)
        }
    }
    "the length is read with a sign" SignedLength {
        fn in_use(&self, length: usize, used: u64) -> Answer {
            let past = i64::try_from(used).is_ok_and(|used| used > length as i64);
            if past { Err(ONE) } else { Ok(usize::try_from(used).unwrap_or(length).min(length)) }
        }
    }
    "room asked by a sum that wraps" WrappingSum {
        fn in_use(&self, length: usize, used: u64) -> Answer {
            let fits = used.wrapping_add(8) <= length as u64;
            if fits { Ok(usize::try_from(used).unwrap_or(length).min(length)) } else { Paper.in_use(length, used) }
        }
    }
    "the whole buffer is read" WholeBuffer {
        fn read(&self, buffer: &[u8], _: usize) -> Result<(), Refusal> {
            check_vocabulary(buffer).map(|_| ())
        }
    }
    "a length under 8 is 27" ShortIs27 {
        fn read(&self, buffer: &[u8], used: usize) -> Result<(), Refusal> {
            refuse_if(used < RECORD_BYTES, 27, 0)?;
            Paper.read(buffer, used)
        }
    }
    "a length that is no multiple of 8 is cut" OddIsCut {
        fn read(&self, buffer: &[u8], used: usize) -> Result<(), Refusal> {
            Paper.read(buffer, used - used % RECORD_BYTES)
        }
    }
    "a length over 4,096 is 27" OverIs27 {
        fn read(&self, buffer: &[u8], used: usize) -> Result<(), Refusal> {
            refuse_if(used > 4096, 27, used / RECORD_BYTES)?;
            Paper.read(buffer, used)
        }
    }
    "a buffer over 4,096 bytes is 1" LongIs1 {
        fn read(&self, buffer: &[u8], used: usize) -> Result<(), Refusal> {
            refuse_if(buffer.len() > 4096, 1, 0)?;
            Paper.read(buffer, used)
        }
    }
    "a buffer over 4,096 bytes is 27" LongIs27 {
        fn room(&self, adding: &Adding) -> Result<(), Refusal> {
            refuse_if(adding.used + adding.free > 4096, 27, adding.count())?;
            Paper.room(adding)
        }
    }
    "rows 2 to 8 not asked" OnlyLength {
        fn read(&self, buffer: &[u8], used: usize) -> Result<(), Refusal> {
            read_but(buffer, used, |refusal| refusal.number > 1)
        }
        fn holder(&self, records: &[Record]) -> usize {
            last_reached(records)
        }
    }
    "rows 3 to 8 not asked" OnlyHeader {
        fn read(&self, buffer: &[u8], used: usize) -> Result<(), Refusal> {
            read_but(buffer, used, |refusal| refusal.number > 2)
        }
        fn holder(&self, records: &[Record]) -> usize {
            last_reached(records)
        }
    }
    "row 28 not asked" NoCount {
        fn read(&self, buffer: &[u8], used: usize) -> Result<(), Refusal> {
            read_but(buffer, used, |refusal| refusal.number == 28)
        }
    }
    "row 8 not asked" NoChain {
        fn read(&self, buffer: &[u8], used: usize) -> Result<(), Refusal> {
            read_but(buffer, used, |refusal| refusal.number == 8)
        }
        fn holder(&self, records: &[Record]) -> usize {
            last_reached(records)
        }
    }
    "row 8 asked along the chain alone" ChainAlone {
        fn read(&self, buffer: &[u8], used: usize) -> Result<(), Refusal> {
            let all = records(buffer.get(..used).unwrap_or_default());
            read_but(buffer, used, |refusal| {
                refusal.number == 8 && refusal.place != 0 && !reached(&all).contains(&refusal.place)
            })
        }
        fn holder(&self, records: &[Record]) -> usize {
            last_reached(records)
        }
    }
    "row 8 before rows 3 to 7" ChainFirst {
        fn read(&self, buffer: &[u8], used: usize) -> Result<(), Refusal> {
            let read = Paper.read(buffer, used);
            let all = records(buffer.get(..used).unwrap_or_default());
            let header = usize::from(at(&all, 0).fields[0]);
            let wrong = header != 0 && !at(&all, header).is_statement();
            if read.is_err_and(|refusal| refusal.number > 2) {
                refuse_if(wrong, 8, 0)?;
            }
            read
        }
    }
    "27 before rows 1 to 8" RoomFirst {
        fn order(&self) -> [Check; 3] {
            [Check::Room, Check::InUse, Check::Own]
        }
    }
    "27 after row 1 and before rows 2 to 8" RoomSecond {
        fn read(&self, buffer: &[u8], used: usize) -> Result<(), Refusal> {
            let read = Paper.read(buffer, used);
            let lacks = used / RECORD_BYTES >= 512 || buffer.len() - used < RECORD_BYTES;
            refuse_if(lacks && read != Err(ONE), 27, used / RECORD_BYTES)?;
            read
        }
    }
    "27 after the new record's own rows" RoomLast {
        fn order(&self) -> [Check; 3] {
            [Check::InUse, Check::Own, Check::Room]
        }
    }
    "the new record's own rows first" OwnFirst {
        fn order(&self) -> [Check; 3] {
            [Check::Own, Check::InUse, Check::Room]
        }
    }
    "the kind asked before 27" KindBeforeRoom {
        fn room(&self, adding: &Adding) -> Result<(), Refusal> {
            refuse_if(self.applies(3, adding), 3, adding.count())?;
            Paper.room(adding)
        }
    }
    "the kind asked before rows 1 to 8" KindFirst {
        fn add(&self, buffer: &mut [u8], used: u64, call: crate::writer::file::Call) -> Answer {
            let wrong = matches!(call, crate::writer::file::Call::Term { kind, .. } if !self.is_term_kind(kind));
            refuse_if(wrong, 3, used as usize / RECORD_BYTES)?;
            Paper.add(buffer, used, call)
        }
    }
    "27 with place 0" RoomAt0 {
        fn place_of_27(&self, _: &Adding) -> usize {
            0
        }
    }
    "27 with the length as its place" RoomAtLength {
        fn place_of_27(&self, adding: &Adding) -> usize {
            adding.used
        }
    }
    "27 with the free bytes as its place" RoomAtFree {
        fn place_of_27(&self, adding: &Adding) -> usize {
            adding.free
        }
    }
    "27 with the last record as its place" RoomAtLast {
        fn place_of_27(&self, adding: &Adding) -> usize {
            adding.count() - 1
        }
    }
    "512 records not refused" NoMost {
        fn is_full(&self, _: usize) -> bool {
            false
        }
    }
    "511 records refused" LessThanMost {
        fn is_full(&self, count: usize) -> bool {
            count >= 511
        }
    }
    "only the records counted for 27" OnlyRecords {
        fn lacks_bytes(&self, _: usize) -> bool {
            false
        }
    }
    "7 free bytes enough" SevenFree {
        fn lacks_bytes(&self, free: usize) -> bool {
            free < 7
        }
    }
    "1 free byte enough" OneFree {
        fn lacks_bytes(&self, free: usize) -> bool {
            free < 1
        }
    }
    "9 free bytes asked for" NineFree {
        fn lacks_bytes(&self, free: usize) -> bool {
            free < 9
        }
    }
    "16 free bytes asked for" SixteenFree {
        fn lacks_bytes(&self, free: usize) -> bool {
            free < 16
        }
    }
    "free bytes asked of statements alone" StatementsFree {
        fn room(&self, adding: &Adding) -> Result<(), Refusal> {
            if adding.as_term && adding.free < RECORD_BYTES { Ok(()) } else { Paper.room(adding) }
        }
    }
    "free bytes asked of terms alone" TermsFree {
        fn room(&self, adding: &Adding) -> Result<(), Refusal> {
            if !adding.as_term && adding.free < RECORD_BYTES { Ok(()) } else { Paper.room(adding) }
        }
    }
    "12 in place of 27" TwelveForRoom {
        fn room(&self, adding: &Adding) -> Result<(), Refusal> {
            Paper.room(adding).map_err(|refusal| Refusal { number: 12, ..refusal })
        }
    }
    "1 in place of 27 at 512 records" OneForRoom {
        fn room(&self, adding: &Adding) -> Result<(), Refusal> {
            let full = adding.count() == 512;
            Paper.room(adding).map_err(|refusal| if full { ONE } else { refusal })
        }
    }
    "a vocabulary with statements off the chain refused" OffChainRefused {
        fn read(&self, buffer: &[u8], used: usize) -> Result<(), Refusal> {
            Paper.read(buffer, used)?;
            let all = records(buffer.get(..used).unwrap_or_default());
            let statements = all.iter().filter(|record| record.is_statement()).count();
            refuse_if(chain(&all).len() < statements, 8, 0)
        }
    }
}

/// The last statement that the header reaches so, or the header. A writer that lets a wrong chain through has to use
/// this: such a chain may lead in a circle.
fn last_reached(records: &[Record]) -> usize {
    reached(records).last().copied().unwrap_or(0)
}

/// The statements that the header reaches by links to later statements.
fn reached(records: &[Record]) -> Vec<usize> {
    let mut reached = Vec::new();
    let mut next = usize::from(at(records, 0).fields[0]);
    while next > reached.last().copied().unwrap_or(0) && at(records, next).is_statement() {
        reached.push(next);
        next = usize::from(at(records, next).fields[2]);
    }
    reached
}
