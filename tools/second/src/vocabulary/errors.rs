//! Readers that are wrong in one point of the editions or of row 28, so that the tables of all subjects can say how many
//! cases tell each from the right one.

use crate::vocabulary::call::{check_length, Refusal, MOST_ROLES};
use crate::vocabulary::records::{at, records, Record, B, EDITION_1, EDITION_2, NEXT};
use crate::vocabulary::rules::{Check, Paper, Rules};

/// The paper's record call, where row 28 is asked too.
fn counted_find(bytes: &[u8], number: u32, late: bool) -> Result<usize, Refusal> {
    check_length(bytes)?;
    let found = Paper.find(bytes, number);
    if late {
        found?;
    }
    Paper.check_count(&records(bytes))?;
    found
}

wrong! {
    "28 before 8" BeforeChains {
        fn order(&self) -> [Check; 4] {
            [Check::Header, Check::Records, Check::Atoms, Check::Chains]
        }
    }
    "28 before 3 to 7" BeforeRecords {
        fn order(&self) -> [Check; 4] {
            [Check::Header, Check::Atoms, Check::Records, Check::Chains]
        }
    }
    "28 before 2" BeforeHeader {
        fn order(&self) -> [Check; 4] {
            [Check::Atoms, Check::Header, Check::Records, Check::Chains]
        }
    }
    "28 not asked" NotAsked {
        fn holds_count(&self, _: Record) -> bool {
            false
        }
    }
    "28 asked of edition 1" AskedOfFirst {
        fn holds_count(&self, header: Record) -> bool {
            matches!(header.second, EDITION_1 | EDITION_2)
        }
    }
    "28 with the held number as its place" PlaceHeld {
        fn place(&self, records: &[Record]) -> usize {
            usize::from(at(records, 0).fields[NEXT])
        }
    }
    "28 with place 0" PlaceZero {
        fn place(&self, _: &[Record]) -> usize {
            0
        }
    }
    "28 with the record count as its place" PlaceRecords {
        fn place(&self, records: &[Record]) -> usize {
            records.len()
        }
    }
    "28 with k in eight bits as its place" PlaceEight {
        fn place(&self, records: &[Record]) -> usize {
            self.count(records) & 255
        }
    }
    "2 in place of 28" TwoForCount {
        fn number(&self) -> u8 {
            2
        }
        fn place(&self, _: &[Record]) -> usize {
            0
        }
    }
    "11 in place of 28" ElevenForCount {
        fn number(&self) -> u8 {
            11
        }
    }
    "2 before all else where k is wrong" TwoFirst {
        fn admits(&self, header: Record, records: &[Record]) -> bool {
            Paper.admits(header, records) && Paper.check_count(records).is_ok()
        }
    }
    "k without kind 8" WithoutAll {
        fn is_atom(&self, record: &Record) -> bool {
            matches!(record.kind, 3 | 7)
        }
    }
    "k without kind 7" WithoutSome {
        fn is_atom(&self, record: &Record) -> bool {
            matches!(record.kind, 3 | 8)
        }
    }
    "k without names" WithoutNames {
        fn is_atom(&self, record: &Record) -> bool {
            matches!(record.kind, 7 | 8)
        }
    }
    "k of names alone" NamesAlone {
        fn is_atom(&self, record: &Record) -> bool {
            record.is_name()
        }
    }
    "k of terms" OfTerms {
        fn is_atom(&self, record: &Record) -> bool {
            record.is_term()
        }
    }
    "k of all records" OfRecords {
        fn is_atom(&self, _: &Record) -> bool {
            true
        }
    }
    "k with the header" WithHeader {
        fn count(&self, records: &[Record]) -> usize {
            Paper.count(records) + 1
        }
    }
    "k without the first record" WithoutFirst {
        fn count(&self, records: &[Record]) -> usize {
            records.iter().skip(2).filter(|record| record.is_atom()).count()
        }
    }
    "k without the last record" WithoutLast {
        fn count(&self, records: &[Record]) -> usize {
            Paper.count(records.split_last().map_or(&[], |(_, rest)| rest))
        }
    }
    "k counted up to 12" UpTo12 {
        fn is_count(&self, held: u16, count: usize) -> bool {
            held.min(13) == count.min(13) as u16
        }
    }
    "k compared in its low byte" LowByte {
        fn is_count(&self, held: u16, count: usize) -> bool {
            (held ^ count as u16) & 255 == 0
        }
    }
    "k compared in its high byte" HighByte {
        fn is_count(&self, held: u16, count: usize) -> bool {
            (held ^ count as u16) >> 8 == 0
        }
    }
    "k high byte first" Swapped {
        fn is_count(&self, held: u16, count: usize) -> bool {
            usize::from(held.swap_bytes()) == count
        }
    }
    "28 where less is held alone" LessAlone {
        fn is_count(&self, held: u16, count: usize) -> bool {
            usize::from(held) >= count
        }
    }
    "28 where more is held alone" MoreAlone {
        fn is_count(&self, held: u16, count: usize) -> bool {
            usize::from(held) <= count
        }
    }
    "0 held let in" ZeroHeld {
        fn is_count(&self, held: u16, count: usize) -> bool {
            held == 0 || usize::from(held) == count
        }
    }
    "65535 held let in" MostHeld {
        fn is_count(&self, held: u16, count: usize) -> bool {
            held == u16::MAX || usize::from(held) == count
        }
    }
    "edition 2 refused" OneEdition {
        fn admits(&self, header: Record, _: &[Record]) -> bool {
            header.second == EDITION_1 && header.fields[NEXT] == 0
        }
    }
    "edition 1 refused" SecondAlone {
        fn admits(&self, header: Record, _: &[Record]) -> bool {
            header.second == EDITION_2
        }
    }
    "edition 2 with next 0 alone" NextZero {
        fn admits(&self, header: Record, records: &[Record]) -> bool {
            Paper.admits(header, records) && header.fields[NEXT] == 0
        }
    }
    "edition 2 with next up to 12 alone" NextTwelve {
        fn admits(&self, header: Record, records: &[Record]) -> bool {
            Paper.admits(header, records) && header.fields[NEXT] <= 12
        }
    }
    "edition 2 with next below 512 alone" NextRecords {
        fn admits(&self, header: Record, records: &[Record]) -> bool {
            Paper.admits(header, records) && header.fields[NEXT] < 512
        }
    }
    "edition 1 with any next" FirstAny {
        fn admits(&self, header: Record, _: &[Record]) -> bool {
            matches!(header.second, EDITION_1 | EDITION_2)
        }
    }
    "edition 1 with k as its next" FirstCounted {
        fn admits(&self, header: Record, records: &[Record]) -> bool {
            let counted = usize::from(header.fields[NEXT]) == Paper.count(records);
            Paper.admits(header, records) || (header.second == EDITION_1 && counted)
        }
    }
    "edition 1 with another next is 28" FirstIs28 {
        fn admits(&self, header: Record, _: &[Record]) -> bool {
            matches!(header.second, EDITION_1 | EDITION_2)
        }
        fn holds_count(&self, header: Record) -> bool {
            header.second == EDITION_2 || header.fields[NEXT] != 0
        }
    }
    "second byte 3 as edition 2" ThirdAsSecond {
        fn admits(&self, header: Record, records: &[Record]) -> bool {
            Paper.admits(header, records) || header.second == 3
        }
        fn holds_count(&self, header: Record) -> bool {
            matches!(header.second, 2 | 3)
        }
    }
    "second byte 3 as edition 1" ThirdAsFirst {
        fn admits(&self, header: Record, records: &[Record]) -> bool {
            Paper.admits(header, records) || (header.second == 3 && header.fields[NEXT] == 0)
        }
    }
    "second byte 0 as edition 1" ZeroAsFirst {
        fn admits(&self, header: Record, records: &[Record]) -> bool {
            Paper.admits(header, records) || (header.second == 0 && header.fields[NEXT] == 0)
        }
    }
    "any second byte but 1 as edition 2" AnyAsSecond {
        fn admits(&self, header: Record, records: &[Record]) -> bool {
            Paper.admits(header, records) || header.second != EDITION_1
        }
        fn holds_count(&self, header: Record) -> bool {
            header.second != EDITION_1
        }
    }
    "edition 2 with any role count" AnyRoles {
        fn is_wrong_header(&self, records: &[Record]) -> bool {
            let header = at(records, 0);
            let many = header.fields[B] > MOST_ROLES && header.second != EDITION_2;
            header.kind != 16 || many || !Paper.admits(header, records)
        }
    }
    "edition 2 with any kind" AnyKind {
        fn is_wrong_header(&self, records: &[Record]) -> bool {
            let header = at(records, 0);
            let kind = header.kind != 16 && header.second != EDITION_2;
            kind || header.fields[B] > MOST_ROLES || !Paper.admits(header, records)
        }
    }
}

/// Record calls that are wrong in row 28.
pub mod calls {
    use super::counted_find;
    use crate::vocabulary::call::Refusal;
    use crate::vocabulary::rules::{Paper, Rules};

    wrong! {
        "28 in the record call, before 9" CountedFirst {
            fn find(&self, bytes: &[u8], number: u32) -> Result<usize, Refusal> {
                counted_find(bytes, number, false)
            }
        }
        "28 in the record call, after 9" CountedLast {
            fn find(&self, bytes: &[u8], number: u32) -> Result<usize, Refusal> {
                counted_find(bytes, number, true)
            }
        }
        "the vocabulary check in the record call" CheckedFirst {
            fn find(&self, bytes: &[u8], number: u32) -> Result<usize, Refusal> {
                self.check(bytes)?;
                Paper.find(bytes, number)
            }
        }
    }
}

/// What a reader that knows edition 1 alone refuses. The groups of cases from before edition 2 draw by this, so that they
/// stay as they are.
pub fn refused_before(bytes: &[u8]) -> Option<Refusal> {
    OneEdition.check(bytes).err()
}
