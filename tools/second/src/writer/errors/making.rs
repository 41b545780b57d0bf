//! Writers that make an empty vocabulary in a wrong way.

use crate::vocabulary::records::{bytes, records, Record, RECORD_BYTES};
use crate::vocabulary::{check_vocabulary, Refusal};
use crate::writer::rules::{put, Answer, Paper, Rules};

/// The header of so many roles, changed.
fn header_with(roles: u32, change: impl Fn(&mut Record)) -> Vec<u8> {
    let mut header = Record::header_2(roles as u16);
    change(&mut header);
    bytes(&[header])
}

/// Makes a vocabulary as the paper says, and puts back what stood in some of the header's bytes.
fn keeping(buffer: &mut [u8], roles: u32, kept: std::ops::Range<usize>) -> Answer {
    let before = buffer.to_vec();
    let answer = Paper.make(buffer, roles)?;
    put(buffer, kept.start, before.get(kept).unwrap_or_default());
    Ok(answer)
}

wrong! {
    "making: 2 before 27" TwoFirst {
        fn making(&self) -> [u8; 2] {
            [2, 27]
        }
    }
    "making: 7 bytes enough" SevenMake {
        fn too_short(&self, length: usize) -> bool {
            length < 7
        }
    }
    "making: 9 bytes asked for" NineMake {
        fn too_short(&self, length: usize) -> bool {
            length < 9
        }
    }
    "making: room for a record asked for" SixteenMake {
        fn too_short(&self, length: usize) -> bool {
            length < 16
        }
    }
    "making: a buffer over 4,096 bytes refused" LongMake {
        fn too_short(&self, length: usize) -> bool {
            !(8..=4096).contains(&length)
        }
    }
    "making: 1 in place of 27" OneMake {
        fn make(&self, buffer: &mut [u8], roles: u32) -> Answer {
            let answer = Paper.make(buffer, roles);
            answer.map_err(|refusal| if refusal.number == 27 { Refusal { number: 1, place: 0 } } else { refusal })
        }
    }
    "making: 27 with the length as its place" LengthPlace {
        fn make(&self, buffer: &mut [u8], roles: u32) -> Answer {
            let length = buffer.len();
            let answer = Paper.make(buffer, roles);
            answer.map_err(|refusal| if refusal.number == 27 { Refusal { place: length, ..refusal } } else { refusal })
        }
    }
    "making: 2 with the role count as its place" RolesPlace {
        fn make(&self, buffer: &mut [u8], roles: u32) -> Answer {
            let answer = Paper.make(buffer, roles);
            answer.map_err(|refusal| if refusal.number == 2 { Refusal { place: roles as usize, ..refusal } } else { refusal })
        }
    }
    "making: 6 in place of 2" SixMake {
        fn make(&self, buffer: &mut [u8], roles: u32) -> Answer {
            let answer = Paper.make(buffer, roles);
            answer.map_err(|refusal| if refusal.number == 2 { Refusal { number: 6, ..refusal } } else { refusal })
        }
    }
    "making: 65 roles let in" SixtyFive {
        fn too_many(&self, roles: u32) -> bool {
            roles > 65
        }
    }
    "making: 64 roles refused" SixtyFour {
        fn too_many(&self, roles: u32) -> bool {
            roles > 63
        }
    }
    "making: no role refused" NoRole {
        fn too_many(&self, roles: u32) -> bool {
            roles > 64 || roles == 0
        }
    }
    "making: any role count let in" AnyRoles {
        fn too_many(&self, _: u32) -> bool {
            false
        }
    }
    "making: role count cut to 16 bits" SixteenBits {
        fn too_many(&self, roles: u32) -> bool {
            roles & 0xffff > 64
        }
    }
    "making: role count cut to 8 bits" EightBits {
        fn too_many(&self, roles: u32) -> bool {
            roles & 0xff > 64
        }
    }
    "making: role count read with a sign" Signed {
        fn too_many(&self, roles: u32) -> bool {
            roles as i32 > 64
        }
    }
    "making: the rest of the buffer cleared" MakeClears {
        fn made(&self, buffer: &mut [u8]) -> usize {
            buffer.iter_mut().skip(RECORD_BYTES).for_each(|byte| *byte = 0);
            RECORD_BYTES
        }
    }
    "making: the eight bytes behind cleared" MakeClearsEight {
        fn made(&self, buffer: &mut [u8]) -> usize {
            put(buffer, RECORD_BYTES, &[0; RECORD_BYTES]);
            RECORD_BYTES
        }
    }
    "making: the buffer's length answered" MakeLength {
        fn made(&self, buffer: &mut [u8]) -> usize {
            buffer.len()
        }
    }
    "making: the record count answered" MakeCount {
        fn made(&self, _: &mut [u8]) -> usize {
            1
        }
    }
    "making: 0 answered" MakeZero {
        fn made(&self, _: &mut [u8]) -> usize {
            0
        }
    }
    "making: an accepted vocabulary kept" MakeKeeps {
        fn make(&self, buffer: &mut [u8], roles: u32) -> Answer {
            match check_vocabulary(buffer) {
                Ok(_) => Ok(RECORD_BYTES),
                Err(_) => Paper.make(buffer, roles),
            }
        }
    }
    "making: the chain of what stood there kept" MakeKeepsChain {
        fn make(&self, buffer: &mut [u8], roles: u32) -> Answer {
            let is_header = records(buffer).first().is_some_and(|record| record.kind == 16);
            if is_header { keeping(buffer, roles, 2..4) } else { Paper.make(buffer, roles) }
        }
    }
    "making: A not written" MakeKeepsA {
        fn make(&self, buffer: &mut [u8], roles: u32) -> Answer {
            keeping(buffer, roles, 2..4)
        }
    }
    "making: next not written" MakeKeepsNext {
        fn make(&self, buffer: &mut [u8], roles: u32) -> Answer {
            keeping(buffer, roles, 6..8)
        }
    }
    "making: second byte not written" MakeKeepsSecond {
        fn make(&self, buffer: &mut [u8], roles: u32) -> Answer {
            keeping(buffer, roles, 1..2)
        }
    }
    "making: the role count's high byte not written" MakeKeepsHigh {
        fn make(&self, buffer: &mut [u8], roles: u32) -> Answer {
            keeping(buffer, roles, 5..6)
        }
    }
    "making: second byte 0" MakeSecond {
        fn header(&self, roles: u32) -> Vec<u8> {
            header_with(roles, |header| header.second = 0)
        }
    }
    "making: edition 1" MakeEdition {
        fn header(&self, roles: u32) -> Vec<u8> {
            header_with(roles, |header| header.second = 1)
        }
    }
    "making: second byte 3" MakeThird {
        fn header(&self, roles: u32) -> Vec<u8> {
            header_with(roles, |header| header.second = 3)
        }
    }
    "making: edition 2 with k 1" MakeOne {
        fn header(&self, roles: u32) -> Vec<u8> {
            header_with(roles, |header| header.fields[2] = 1)
        }
    }
    "making: the edition of what stood there kept" MakeKeepsEdition {
        fn make(&self, buffer: &mut [u8], roles: u32) -> Answer {
            let is_header = records(buffer).first().is_some_and(|record| record.kind == 16 && record.second == 1);
            if is_header { keeping(buffer, roles, 1..2) } else { Paper.make(buffer, roles) }
        }
    }
    "making: the k of what stood there kept" MakeKeepsCount {
        fn make(&self, buffer: &mut [u8], roles: u32) -> Answer {
            let is_header = records(buffer).first().is_some_and(|record| record.kind == 16 && record.second == 2);
            if is_header { keeping(buffer, roles, 6..8) } else { Paper.make(buffer, roles) }
        }
    }
    "making: roles in A" MakeRolesInA {
        fn header(&self, roles: u32) -> Vec<u8> {
            header_with(roles, |header| header.fields = [roles as u16, 0, 0])
        }
    }
    "making: roles in next" MakeRolesInNext {
        fn header(&self, roles: u32) -> Vec<u8> {
            header_with(roles, |header| header.fields = [0, 0, roles as u16])
        }
    }
    "making: roles high byte first" MakeSwapped {
        fn header(&self, roles: u32) -> Vec<u8> {
            header_with(roles, |header| header.fields = [0, (roles as u16).swap_bytes(), 0])
        }
    }
    "making: the header written where 2 is answered" MakeOnTwo {
        fn make(&self, buffer: &mut [u8], roles: u32) -> Answer {
            let answer = Paper.make(buffer, roles);
            if answer.is_err_and(|refusal| refusal.number == 2) {
                put(buffer, 0, &self.header(roles));
            }
            answer
        }
    }
    "making: what fits of the header written where 27 is answered" MakeOn27 {
        fn make(&self, buffer: &mut [u8], roles: u32) -> Answer {
            let answer = Paper.make(buffer, roles);
            if answer.is_err_and(|refusal| refusal.number == 27) {
                put(buffer, 0, &self.header(roles));
            }
            answer
        }
    }
}
