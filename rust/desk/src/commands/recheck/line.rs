//! A line of a table: its fields, and what it claims.

use super::table::{Line, LINE_BYTES};
use crate::display::{beginning, did_you_mean, grouped};
use std::borrow::Cow;

/// The most characters of a line that are repeated in the report.
const REPEATED: usize = 160;
/// The words of claims.
const CLAIMS: [&str; 3] = ["equal", "different", "within"];
/// How a line is made, for people who made it otherwise.
const FORM: &str = "a line is VOCABULARY A B and equal, different, within or within SCRIPT";

/// A word of a line, and where it begins in bytes.
#[derive(Clone, Copy, Debug, PartialEq, Eq)]
pub struct Field<'a> {
    /// The word.
    pub text: &'a str,
    start: usize,
}

/// What a line claims of its terms.
#[derive(Clone, Copy, Debug, PartialEq, Eq)]
pub enum Claim<'a> {
    /// They are equal.
    Equal,
    /// They are not.
    Different,
    /// The first lies within the second.
    Within,
    /// The same, and a script proves it.
    Proved(Field<'a>),
}

/// A line that has the form.
#[derive(Clone, Copy, Debug, PartialEq, Eq)]
pub struct Row<'a> {
    /// The file of the vocabulary.
    pub vocabulary: Field<'a>,
    /// The words for the terms.
    pub pair: [Field<'a>; 2],
    /// The claim.
    pub claim: Claim<'a>,
}

/// Why a line does not have the form, and at which byte that shows.
#[derive(Debug, PartialEq, Eq)]
pub struct Malformed {
    start: usize,
    /// The reason.
    pub why: String,
}

impl Malformed {
    fn new(start: usize, why: impl Into<String>) -> Malformed {
        Malformed { start, why: why.into() }
    }

    /// What is wrong at a column of a field.
    pub fn in_field(field: Field, column: usize, why: impl Into<String>) -> Malformed {
        let before = field.text.chars().take(column.saturating_sub(1));
        Malformed::new(field.start + before.map(char::len_utf8).sum::<usize>(), why)
    }

    /// A reason, with how a line is made.
    fn form(start: usize, why: &str) -> Malformed {
        Malformed::new(start, format!("{why}; {FORM}"))
    }

    /// The column at which it shows.
    pub fn column(&self, text: &str) -> usize {
        column(text, self.start)
    }
}

impl Field<'_> {
    /// The column at which it begins.
    pub fn column(&self, text: &str) -> usize {
        column(text, self.start)
    }
}

/// The column of a byte of a line, from 1, in characters.
fn column(text: &str, start: usize) -> usize {
    text.get(..start).unwrap_or(text).chars().count() + 1
}

/// The text of a line, and the byte at which it is none.
pub struct Text<'a> {
    /// The text; what is no UTF-8 is replaced.
    pub text: Cow<'a, str>,
    /// The byte at which the line is no UTF-8.
    fault: Option<usize>,
    is_long: bool,
}

impl Text<'_> {
    /// The text of a line.
    pub fn of(line: &Line) -> Text<'_> {
        let read = std::str::from_utf8(&line.bytes);
        Text {
            fault: read.err().map(|error| error.valid_up_to()),
            text: read.map_or_else(|_| String::from_utf8_lossy(&line.bytes), Cow::Borrowed),
            is_long: line.is_long,
        }
    }

    /// Whether the line says something: it is neither empty nor a comment.
    pub fn says(&self) -> bool {
        let trimmed = self.text.trim_start();
        !trimmed.starts_with("--") && (self.is_long || !trimmed.is_empty())
    }

    /// What the line says.
    pub fn read(&self) -> Result<Row<'_>, Malformed> {
        if self.is_long {
            let most = grouped(LINE_BYTES as u64);
            let why = format!("the line is too long; it may have {most} bytes");
            return Err(Malformed::new(0, why));
        }
        if let Some(start) = self.fault {
            return Err(Malformed::new(start, "the line is no text (not UTF-8)"));
        }
        if let Some(start) = self.text.find('\0') {
            return Err(Malformed::new(start, "the line is no text (it has bytes that are 0)"));
        }
        row(&self.text)
    }
}

/// A line or a word of the table as the report repeats it.
pub fn repeated(text: &str) -> String {
    beginning(text.trim(), REPEATED)
}

fn row(text: &str) -> Result<Row<'_>, Malformed> {
    let fields = fields(text)?;
    if let Some(empty) = fields.iter().find(|field| field.text.is_empty()) {
        return Err(Malformed::form(empty.start, "a field is empty"));
    }
    let end = text.trim_end().len();
    let [vocabulary, a, b, ref claim @ ..] = fields[..] else {
        return Err(Malformed::form(end, "a field is missing"));
    };
    Ok(Row {
        vocabulary,
        pair: [a, b],
        claim: read_claim(claim, end)?,
    })
}

/// The fields, set apart by tabs if there are any, else by blanks.
fn fields(text: &str) -> Result<Vec<Field<'_>>, Malformed> {
    if text.trim().contains('\t') {
        Ok(fields_by_tabs(text))
    } else {
        fields_by_blanks(text)
    }
}

fn fields_by_tabs(text: &str) -> Vec<Field<'_>> {
    let mut at = text.len() - text.trim_start().len();
    let mut fields = Vec::new();
    for part in text.trim().split_inclusive('\t') {
        let word = part.trim();
        let blanks = if word.is_empty() {
            0
        } else {
            part.len() - part.trim_start().len()
        };
        fields.push(Field {
            text: word,
            start: at + blanks,
        });
        at += part.len();
    }
    fields
}

/// A term may have blanks in quotation marks and in parentheses. Names of files have none, but may have such marks.
fn fields_by_blanks(text: &str) -> Result<Vec<Field<'_>>, Malformed> {
    let mut fields = Vec::new();
    let mut rest = text.trim_start();
    while !rest.is_empty() {
        let start = text.len() - rest.len();
        let is_term = matches!(fields.len(), 1 | 2);
        let end = match is_term && rest.contains(['"', '(']) {
            true => term_end(rest).map_err(|(at, why)| Malformed::form(start + at, why))?,
            false => rest.find(char::is_whitespace).unwrap_or(rest.len()),
        };
        let (word, after) = rest.split_at_checked(end).unwrap_or((rest, ""));
        fields.push(Field { text: word, start });
        rest = after.trim_start();
    }
    Ok(fields)
}

/// Where a term ends: at a blank outside quotation marks and parentheses. Else which of them is not closed.
fn term_end(text: &str) -> Result<usize, (usize, &'static str)> {
    let (mut quoted, mut open) = (None, Vec::new());
    let mut characters = text.char_indices();
    while let Some((at, character)) = characters.next() {
        match (quoted, character) {
            (Some(_), '"') => quoted = None,
            // What is escaped ends no quotation.
            (Some(_), '\\') => drop(characters.next()),
            (Some(_), _) => {}
            (None, '"') => quoted = Some(at),
            (None, '(') => open.push(at),
            (None, ')') => drop(open.pop()),
            (None, _) if character.is_whitespace() && open.is_empty() => return Ok(at),
            (None, _) => {}
        }
    }
    match (quoted, open.last()) {
        (Some(at), _) => Err((at, "this quotation mark is not closed")),
        (None, Some(at)) => Err((*at, "this parenthesis is not closed")),
        (None, None) => Ok(text.len()),
    }
}

/// The claim; `end` is where the line ends.
fn read_claim<'a>(fields: &[Field<'a>], end: usize) -> Result<Claim<'a>, Malformed> {
    let Some((word, rest)) = fields.split_first() else {
        return Err(Malformed::form(end, "the claim is missing"));
    };
    let (claim, extra) = match (word.text, rest) {
        ("equal", extra) => (Claim::Equal, extra),
        ("different", extra) => (Claim::Different, extra),
        ("within", []) => (Claim::Within, rest),
        ("within", [script, extra @ ..]) => (Claim::Proved(*script), extra),
        (other, later) => return Err(no_claim(word.start, other, later)),
    };
    match extra.first() {
        None => Ok(claim),
        Some(extra) => {
            let why = format!("'{}' is one field too many", repeated(extra.text));
            Err(Malformed::form(extra.start, &why))
        }
    }
}

fn no_claim(start: usize, word: &str, later: &[Field]) -> Malformed {
    let why = format!("'{}' is no claim", repeated(word));
    if later.iter().any(|field| CLAIMS.contains(&field.text)) {
        return Malformed::form(start, &format!("{why}; a name with blanks stands in double quotes"));
    }
    match did_you_mean(word, CLAIMS) {
        hint if hint.is_empty() => Malformed::form(start, &why),
        hint => Malformed::new(start, why + &hint),
    }
}

#[cfg(test)]
mod tests {
    #![allow(clippy::unwrap_used, clippy::indexing_slicing)]

    use super::{repeated, Claim, Row, Text};
    use crate::commands::recheck::table::Line;

    fn line(bytes: &[u8]) -> Line {
        Line {
            number: 1,
            bytes: bytes.to_vec(),
            is_long: false,
            end: 0,
        }
    }

    /// The column and the reason of a malformed line.
    fn fault(bytes: &[u8]) -> (usize, String) {
        let line = line(bytes);
        let text = Text::of(&line);
        assert!(text.says());
        let malformed = text.read().unwrap_err();
        (malformed.column(&text.text), malformed.why)
    }

    #[test]
    fn a_line_has_its_fields_by_blanks_or_by_tabs() {
        for (text, file, script) in [
            ("v 4 3 within s", "v", "s"),
            ("  v\u{a0}4  3 within s \r", "v", "s"),
            ("v w\t 4\t3 \twithin\ts t", "v w", "s t"),
            ("\tv 4 3 within s\t", "v", "s"),
        ] {
            let line = line(text.as_bytes());
            let read = Text::of(&line);
            let Row {
                vocabulary,
                pair,
                claim,
            } = read.read().unwrap();
            assert_eq!(
                (vocabulary.text, pair.map(|field| field.text)),
                (file, ["4", "3"]),
                "{text}"
            );
            assert!(
                matches!(claim, Claim::Proved(field) if field.text == script),
                "{text}: {claim:?}"
            );
        }
        for (text, claim) in [
            ("v 4 3 equal", Claim::Equal),
            ("v 4 3 different", Claim::Different),
            ("v\t4\t3\twithin\t", Claim::Within),
        ] {
            assert_eq!(Text::of(&line(text.as_bytes())).read().unwrap().claim, claim);
        }
    }

    #[test]
    fn a_term_may_have_blanks() {
        for (text, a, b) in [
            ("v \"a b\" c3 equal", "\"a b\"", "c3"),
            (
                "v ObjectUnionOf(c1 \"a ) b\") \"a \\\" b\" equal",
                "ObjectUnionOf(c1 \"a ) b\")",
                "\"a \\\" b\"",
            ),
            ("v\u{a0}f(g(a b) c)\u{a0} h() equal", "f(g(a b) c)", "h()"),
            ("v( a) b equal", "a)", "b"),
            ("v\ta b\t\"c d\"\tequal", "a b", "\"c d\""),
            ("v\tf(a\tb)\tequal", "f(a", "b)"),
        ] {
            let line = line(text.as_bytes());
            let read = Text::of(&line);
            let row = read.read().unwrap();
            assert_eq!(row.pair.map(|field| field.text), [a, b], "{text}");
            assert_eq!(row.claim, Claim::Equal);
            let [_, b_field] = row.pair;
            assert!(read.text[b_field.start..].starts_with(b), "{text}");
        }
    }

    #[test]
    fn what_is_wrong_has_its_column() {
        let form = "; a line is VOCABULARY A B and equal, different, within or within SCRIPT";
        for (text, column, why) in [
            (&b"v"[..], 2, "a field is missing"),
            (b"v 4 3  ", 6, "the claim is missing"),
            ("é 4 \"ü equal".as_bytes(), 5, "this quotation mark is not closed"),
            (b"v 4 \"a\\\" equal", 5, "this quotation mark is not closed"),
            (b"v f(g(4 3) equal", 4, "this parenthesis is not closed"),
            (b"v\t4\t\tequal", 5, "a field is empty"),
            (b"v\t\t4\tequal", 3, "a field is empty"),
            (b"v 4 3 sames", 7, "'sames' is no claim"),
            (
                b"v sent back c3 equal",
                13,
                "'c3' is no claim; a name with blanks stands in double quotes",
            ),
            (b"v 4 3 equal indeed so", 13, "'indeed' is one field too many"),
            (b"v 4 3 within s t", 16, "'t' is one field too many"),
        ] {
            assert_eq!(
                fault(text),
                (column, format!("{why}{form}")),
                "{}",
                String::from_utf8_lossy(text)
            );
        }
        let misspelt = "'eqaul' is no claim; did you mean 'equal'?".to_string();
        assert_eq!(fault(b"v 4 3 eqaul"), (7, misspelt));
        assert_eq!(
            fault(b"v 4 \xff equal"),
            (5, "the line is no text (not UTF-8)".to_string())
        );
        assert_eq!(
            fault(b"v\0 4 3 equal"),
            (2, "the line is no text (it has bytes that are 0)".to_string())
        );
    }

    #[test]
    fn comments_and_empty_lines_say_nothing() {
        for text in [
            &b""[..],
            b" \t",
            b"-- v 4 3 equal",
            b"  --",
            b"-- \xff\0",
            "\u{a0}".as_bytes(),
        ] {
            assert!(!Text::of(&line(text)).says(), "{}", String::from_utf8_lossy(text));
        }
        let long = |bytes: &[u8]| Line {
            is_long: true,
            ..line(bytes)
        };
        assert!(!Text::of(&long(b"--")).says());
        // What follows the first bytes may be something.
        assert!(Text::of(&long(b"   ")).says());
    }

    #[test]
    fn a_long_text_is_repeated_in_part() {
        assert_eq!(repeated(&format!(" {} ", "é".repeat(160))), "é".repeat(160));
        assert_eq!(repeated(&"é".repeat(161)), format!("{} ..", "é".repeat(160)));
    }
}
