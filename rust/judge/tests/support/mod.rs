//! The stored cases of the library, as the tests of the wrapper read them.

/// A file of stored cases that is read from its front.
pub struct Cases<'a>(pub &'a [u8]);

impl<'a> Cases<'a> {
    /// The next bytes.
    pub fn take(&mut self, length: usize) -> &'a [u8] {
        let (front, rest) = self.0.split_at(length);
        self.0 = rest;
        front
    }

    /// The next bytes as a number, low byte first.
    pub fn number(&mut self, bytes: usize) -> u32 {
        let add = |sum, byte: &u8| sum << 8 | u32::from(*byte);
        self.take(bytes).iter().rev().fold(0, add)
    }
}
