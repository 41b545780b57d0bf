//! A table as a stream of bytes, cut into lines. No more of it is kept than a part and a line.

use std::io::{self, ErrorKind, Read};

/// The most bytes of a line, its end not counted.
pub const LINE_BYTES: usize = 64 << 10;
/// How many bytes are read at once, at most.
const PART_BYTES: usize = 64 << 10;
/// A byte order mark, which is no part of the first line.
const MARK: &[u8] = "\u{feff}".as_bytes();

/// A line of a table, whatever it has.
#[derive(Debug, PartialEq, Eq)]
pub struct Line {
    /// Its number, from 1.
    pub number: u64,
    /// Its bytes, without its end; of one that is too long, the first.
    pub bytes: Vec<u8>,
    /// Whether it has more than [`LINE_BYTES`].
    pub is_long: bool,
    /// How many bytes of the table are read with it.
    pub end: u64,
}

/// A table that is being read.
pub struct Table<R> {
    source: R,
    part: Vec<u8>,
    /// Where the bytes of the part begin that are not taken.
    taken: usize,
    /// The bytes of the line so far.
    line: Vec<u8>,
    /// Whether bytes of the line were left out.
    is_long: bool,
    number: u64,
    read: u64,
}

impl<R: Read> Table<R> {
    /// The table that a source has.
    pub fn new(source: R) -> Table<R> {
        Table {
            source,
            part: Vec::new(),
            taken: 0,
            line: Vec::new(),
            is_long: false,
            number: 0,
            read: 0,
        }
    }

    /// Reads the next part of the table, which may have to be waited for. False at the end.
    pub fn read_on(&mut self) -> io::Result<bool> {
        self.part.resize(PART_BYTES, 0);
        let read = loop {
            match self.source.read(&mut self.part) {
                Err(error) if error.kind() == ErrorKind::Interrupted => {}
                read => break read,
            }
        };
        self.part.truncate(*read.as_ref().unwrap_or(&0));
        self.taken = 0;
        Ok(read? > 0)
    }

    /// The next line that ends in the part that was read.
    pub fn next_line(&mut self) -> Option<Line> {
        let rest = self.part.get(self.taken..).unwrap_or_default();
        let end = rest.iter().position(|byte| *byte == b'\n');
        let taken = rest.get(..end.unwrap_or(rest.len())).unwrap_or_default();
        // One byte more than a line has, since the last may be the CR of a line end.
        let room = (LINE_BYTES + 1).saturating_sub(self.line.len());
        self.line.extend_from_slice(taken.get(..room).unwrap_or(taken));
        self.is_long |= taken.len() > room;
        let passed = taken.len() + usize::from(end.is_some());
        self.taken += passed;
        self.read += passed as u64;
        end.map(|_| self.finished())
    }

    /// The last line, if it has no end.
    pub fn last_line(&mut self) -> Option<Line> {
        (!self.line.is_empty()).then(|| self.finished())
    }

    fn finished(&mut self) -> Line {
        let mut bytes = std::mem::take(&mut self.line);
        let mut is_long = std::mem::take(&mut self.is_long);
        if !is_long && bytes.last() == Some(&b'\r') {
            bytes.pop();
        }
        self.number += 1;
        if self.number == 1 && bytes.starts_with(MARK) {
            bytes.drain(..MARK.len());
        }
        is_long |= bytes.len() > LINE_BYTES;
        Line {
            number: self.number,
            bytes,
            is_long,
            end: self.read,
        }
    }
}

#[cfg(test)]
mod tests {
    #![allow(clippy::unwrap_used)]

    use super::{Line, Table, LINE_BYTES};
    use std::io::Read;

    /// Hands out at most so many bytes at once.
    struct Slow<'a>(&'a [u8], usize);

    impl Read for Slow<'_> {
        fn read(&mut self, buffer: &mut [u8]) -> std::io::Result<usize> {
            let most = self.1.min(buffer.len());
            self.0.read(buffer.get_mut(..most).unwrap())
        }
    }

    fn lines(bytes: &[u8], at_once: usize) -> Vec<Line> {
        let mut table = Table::new(Slow(bytes, at_once));
        let mut lines = Vec::new();
        while table.read_on().unwrap() {
            lines.extend(std::iter::from_fn(|| table.next_line()));
        }
        lines.extend(table.last_line());
        lines
    }

    #[test]
    fn lines_are_the_same_however_the_bytes_come() {
        let text = b"\xef\xbb\xbfa\r\n\n\xef\xbb\xbfb\xff\0\r\nc\rd";
        for at_once in [1, 2, 3, 5, 100] {
            let lines = lines(text, at_once);
            let bytes: Vec<&[u8]> = lines.iter().map(|line| line.bytes.as_slice()).collect();
            assert_eq!(bytes, [&b"a"[..], b"", b"\xef\xbb\xbfb\xff\0", b"c\rd"]);
            let places: Vec<(u64, u64)> = lines.iter().map(|line| (line.number, line.end)).collect();
            assert_eq!(places, [(1, 6), (2, 7), (3, 15), (4, 18)]);
        }
        assert_eq!(lines(b"", 1), []);
    }

    #[test]
    fn a_long_line_is_cut_and_the_next_is_whole() {
        for (length, end, is_long) in [
            (LINE_BYTES, "\n", false),
            (LINE_BYTES, "\r\n", false),
            (LINE_BYTES + 1, "\n", true),
            (LINE_BYTES + 1, "\r\n", true),
            (3 * LINE_BYTES, "\n", true),
        ] {
            let text = format!("{}{end}next", "x".repeat(length));
            for at_once in [1, 1000, LINE_BYTES, 4 * LINE_BYTES] {
                let lines = lines(text.as_bytes(), at_once);
                assert_eq!(lines.first().unwrap().is_long, is_long, "{length} {end:?}");
                assert!(lines.first().unwrap().bytes.len() <= LINE_BYTES + 1);
                assert_eq!(lines.get(1).unwrap().bytes, b"next");
                assert!(!lines.get(1).unwrap().is_long);
            }
        }
    }

    #[test]
    fn a_long_line_stays_long_where_the_cut_is_at_a_cr() {
        let text = format!("{}\r{}\n", "x".repeat(LINE_BYTES), "y");
        assert!(lines(text.as_bytes(), 1000).first().unwrap().is_long);
    }
}
