//! What people call something, in quotation marks: `"returned sample"`.

use crate::display::is_followed;
use std::iter::Peekable;
use std::str::CharIndices;

/// What is said where the marks are not closed.
const OPEN: &str = "the quotation mark here is not closed on this line";
/// What is said of an escape that is none.
const ESCAPE: &str = "after a backslash '\"', '\\' or 'u{..}', as \\u{e4}, is expected";

/// A text in quotation marks. Characters that a terminal would follow are escaped, too, so that what is shown can be read
/// back.
pub fn write(text: &str) -> String {
    let mut quoted = String::from("\"");
    for character in text.chars() {
        match character {
            '"' | '\\' => quoted.extend(['\\', character]),
            _ if is_followed(character) => quoted.extend(character.escape_unicode()),
            _ => quoted.push(character),
        }
    }
    quoted.push('"');
    quoted
}

/// The text in the quotation marks that `line` begins with, and how many bytes it takes with them; else what is wrong, and
/// at which byte.
pub fn read(line: &str) -> Result<(String, usize), (usize, &'static str)> {
    let mut characters = line.char_indices().peekable();
    characters.next();
    let mut text = String::new();
    while let Some((at, character)) = characters.next() {
        match character {
            '"' => return Ok((text, at + 1)),
            '\\' => text.push(escaped(&mut characters).ok_or((at, ESCAPE))?),
            _ => text.push(character),
        }
    }
    Err((0, OPEN))
}

/// The character that an escape stands for; its backslash is taken.
fn escaped(characters: &mut Peekable<CharIndices>) -> Option<char> {
    match characters.next()?.1 {
        mark @ ('"' | '\\') => Some(mark),
        'u' => {
            characters.next_if(|(_, next)| *next == '{')?;
            let mut digits = String::new();
            while let Some((_, digit)) = characters.next_if(|(_, next)| next.is_ascii_hexdigit() && digits.len() < 6) {
                digits.push(digit);
            }
            characters.next_if(|(_, next)| *next == '}')?;
            char::from_u32(u32::from_str_radix(&digits, 16).ok()?)
        }
        _ => None,
    }
}

/// A line without its comment, and the comment, if there is one. A comment begins with `--` outside quotation marks; marks
/// that are not closed hide none.
pub fn split_comment(line: &str) -> (&str, Option<&str>) {
    match comment_start(line.as_bytes()) {
        Some(at) => (line.get(..at).unwrap_or_default(), line.get(at + 2..)),
        None => (line, None),
    }
}

fn comment_start(line: &[u8]) -> Option<usize> {
    let (mut quoted, mut hidden, mut at) = (false, None, 0);
    while let Some(byte) = line.get(at) {
        let is_start = line.get(at..at + 2) == Some(b"--");
        match byte {
            b'"' => (quoted, hidden) = (!quoted, None),
            // What is escaped ends no quotation.
            b'\\' if quoted => at += 1,
            _ if is_start && !quoted => return Some(at),
            _ if is_start && hidden.is_none() => hidden = Some(at),
            _ => {}
        }
        at += 1;
    }
    hidden
}

#[cfg(test)]
mod tests {
    use super::{read, split_comment, write};

    /// What is written is read back, and stands on one line without characters that a terminal would follow.
    #[test]
    fn what_is_written_is_read_back() {
        for text in [
            "returned sample",
            "a \"so called\" sample",
            "back\\slash \\\" and \\u{41}",
            "one -- two",
            "Rückware, größer",
            "left\u{200f}right\u{202e}\u{2066}",
            "lines\u{2028}apart",
            "\u{1f427}",
            "--",
            "",
        ] {
            let quoted = write(text);
            assert_eq!(read(&quoted), Ok((text.to_string(), quoted.len())));
            assert_eq!(read(&format!("{quoted} rest")), Ok((text.to_string(), quoted.len())));
            assert!(!quoted.chars().any(crate::display::is_followed), "{quoted}");
            assert_eq!(split_comment(&format!("{quoted} -- x")).1, Some(" x"), "{quoted}");
        }
        assert_eq!(write("a\u{202e}b"), "\"a\\u{202e}b\"");
        assert_eq!(
            read("\"\\u{E4}\\u{1F427}\"").map(|(text, _)| text),
            Ok("ä\u{1f427}".to_string())
        );
    }

    #[test]
    fn what_is_wrong_is_told_where_it_stands() {
        for (line, at) in [
            ("\"a", 0),
            ("\"a\\\"", 0),
            ("\"ab\\n\"", 3),
            ("\"\\u{d800}\"", 1),
            ("\"\\u41\"", 1),
        ] {
            assert_eq!(read(line).map_err(|(at, _)| at), Err(at), "{line}");
        }
        for line in ["\"\\u{}\"", "\"\\u{1234567}\"", "\"\\", "\"\\u{41"] {
            assert!(read(line).is_err(), "{line}");
        }
    }

    #[test]
    fn a_comment_begins_outside_quotation_marks() {
        for (line, before) in [
            ("c1 -- x", "c1 "),
            ("c1", "c1"),
            ("\"a -- b\" -- c", "\"a -- b\" "),
            ("\"a \\\" -- b\" -- c", "\"a \\\" -- b\" "),
            ("\"a\\\\\" -- b", "\"a\\\\\" "),
            ("\"a -- b", "\"a "),
            ("\"a\" \"b -- c -- d", "\"a\" \"b "),
            ("c1 -- \"x", "c1 "),
            ("c1 --- x", "c1 "),
            ("-", "-"),
        ] {
            assert_eq!(split_comment(line).0, before, "{line}");
        }
    }
}
