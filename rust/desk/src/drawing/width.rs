//! How wide a text may come out, whatever font without serifs a browser takes.

/// The height of the letters.
pub const FONT: i32 = 14;

/// The width of a text, on the safe side: widths of Verdana and DejaVu Sans, which are among the widest. It is even, so that
/// there is a middle.
pub fn width(text: &str) -> i32 {
    let hundredths: i32 = text.chars().map(hundredths).sum();
    even(hundredths * FONT / 100)
}

/// The same of bold letters.
pub fn bold(text: &str) -> i32 {
    even(width(text) * 6 / 5)
}

/// The next even number.
fn even(number: i32) -> i32 {
    number + 2 - number % 2
}

/// The width of a character, in hundredths of the height of the letters.
fn hundredths(character: char) -> i32 {
    match character {
        'i' | 'j' | 'l' | '\'' | '|' | '.' | ',' | ':' | ';' | ' ' | '!' | 'I' => 42,
        'f' | 't' | 'r' | '(' | ')' | '[' | ']' | '-' | '/' | '\\' | '"' | '_' => 48,
        'm' | 'M' | 'W' | '@' | '%' => 110,
        'w' | '#' | '+' | '=' | '<' | '>' | '~' | '&' | '^' => 84,
        'a'..='z' | '0'..='9' => 66,
        '\u{20}'..='\u{7e}' => 82,
        // Latin, Greek, Cyrillic, Hebrew, Arabic; East Asian.
        '\u{a0}'..='\u{6ff}' | '\u{2e80}'..='\u{9fff}' | '\u{ac00}'..='\u{d7af}' | '\u{ff00}'..='\u{ffef}' => 110,
        _ => 200,
    }
}
