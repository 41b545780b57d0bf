//! A table whose hash is taken while it is read, since it may come from where it can be read just once.

use crate::files::Digest;
use base::sha256::Sha256;
use std::io::{self, Read};
use std::sync::{Arc, Mutex};

/// The hash of what was read so far.
#[derive(Clone, Default)]
pub struct Taken(Arc<Mutex<(Sha256, u64)>>);

impl Taken {
    /// What was read.
    pub fn digest(&self) -> Option<Digest> {
        let (hash, bytes) = self.0.lock().ok()?.clone();
        Some(Digest {
            sha256: Some(hash.finish()),
            bytes,
        })
    }
}

/// A source, and the hash of what was read from it, where it is wanted.
pub struct Hashed<R> {
    /// The source.
    pub source: R,
    /// The hash.
    pub taken: Option<Taken>,
}

impl<R: Read> Read for Hashed<R> {
    fn read(&mut self, buffer: &mut [u8]) -> io::Result<usize> {
        let read = self.source.read(buffer)?;
        if let Some(mut taken) = self.taken.as_ref().and_then(|taken| taken.0.lock().ok()) {
            taken.0.update(buffer.get(..read).unwrap_or_default());
            taken.1 += read as u64;
        }
        Ok(read)
    }
}
