//! Words and numbers as people read them.

/// A text that may be anything, without characters that a terminal would follow: control characters, and those that
/// change the direction of writing. Tabs stay.
pub fn plain(text: &str) -> String {
    let mut plain = String::new();
    for character in text.chars() {
        if is_followed(character) && character != '\t' {
            plain.extend(character.escape_default());
        } else {
            plain.push(character);
        }
    }
    plain
}

/// Whether a terminal follows a character instead of showing it.
pub fn is_followed(character: char) -> bool {
    let directs =
        matches!(character, '\u{61c}' | '\u{200e}' | '\u{200f}' | '\u{202a}'..='\u{202e}' | '\u{2066}'..='\u{2069}');
    let separates = matches!(character, '\u{2028}' | '\u{2029}');
    character.is_control() || directs || separates
}

/// The beginning of what may be too long: so many characters, and a mark.
pub fn beginning(text: &str, most: usize) -> String {
    match text.char_indices().nth(most) {
        Some((end, _)) => format!("{} ..", text.get(..end).unwrap_or_default()),
        None => text.to_string(),
    }
}

/// A number with its thousands set apart.
pub fn grouped(number: u64) -> String {
    let digits = number.to_string();
    let mut text = String::new();
    for (i, digit) in digits.chars().enumerate() {
        if i > 0 && (digits.len() - i).is_multiple_of(3) {
            text.push(',');
        }
        text.push(digit);
    }
    text
}

/// A count with its noun.
pub fn counted(number: u64, noun: &str) -> String {
    let plural = if number == 1 { "" } else { "s" };
    format!("{} {noun}{plural}", grouped(number))
}

/// What a misspelt word may have meant, to go behind a message; empty where nothing is near.
pub fn did_you_mean<'a>(word: &str, candidates: impl IntoIterator<Item = &'a str>) -> String {
    let meant = base::spelling::nearest(word, candidates);
    meant
        .map(|meant| format!("; did you mean '{meant}'?"))
        .unwrap_or_default()
}
