//! Empty vocabularies, made in buffers of many lengths with many role counts.

use crate::cases::beginning;
use crate::writer::file::Call;
use crate::writer::plan::{length, refused, Meant, Plan};

/// Role counts: all that come near to 64, and those that are small ones once they are cut to fewer bits.
const ROLES: [u32; 24] = [
    0,
    1,
    2,
    5,
    32,
    62,
    63,
    64,
    65,
    66,
    127,
    128,
    255,
    256,
    257,
    320,
    32768,
    65535,
    65536,
    65537,
    65600,
    16_777_216,
    2_147_483_653,
    u32::MAX,
];
/// Lengths of buffers: all short ones, and those around the longest vocabulary.
const LONG: [u16; 6] = [4095, 4096, 4097, 4104, 4200, 8192];
/// The longest of the short ones.
const SHORT: u16 = 17;
/// How many vocabularies are made over something else.
const OVER_OTHERS: usize = 120;

/// What is meant where a vocabulary is made.
fn made(lent: usize, roles: u32) -> Meant {
    match roles {
        _ if lent < 8 => refused(27, 0),
        65.. => refused(2, 0),
        _ => length(8),
    }
}

impl Plan {
    /// Each length of a short buffer with each role count, and longer buffers.
    pub fn made_vocabularies(&mut self) {
        for lent in 0..=SHORT {
            for roles in ROLES {
                self.make(&[], lent, roles);
            }
        }
        for lent in LONG {
            for roles in [0, 7, 64, 65, 65537] {
                self.make(&[], lent, roles);
            }
        }
    }

    /// Adds a case that makes a vocabulary.
    fn make(&mut self, content: &[u8], behind: u16, roles: u32) {
        let meant = made(content.len() + usize::from(behind), roles);
        self.push(content, behind.into(), 0, Call::Make { roles }, meant);
    }

    /// Vocabularies made over other vocabularies, over parts of them, and over random bytes.
    pub fn random_making(&mut self) {
        for turn in 0..OVER_OTHERS {
            let count = 1 + self.random.below(12);
            let mut content = self.vocabulary(count).bytes();
            match turn % 4 {
                0 => content = beginning(&content, self.random.below(20)),
                1 => content.iter_mut().for_each(|byte| *byte = self.random.byte()),
                _ => {}
            }
            let behind = self.random.pick(&[0, 0, 1, 7, 8, 30]).unwrap_or(0);
            let any = self.random.below(1 << 32) as u32;
            let few = self.random.below(70) as u32;
            let roles = self.random.pick(&[few, few, few, any, any & 0xffff, (any & !63) | 5]);
            self.make(&content, behind, roles.unwrap_or(few));
        }
    }
}
