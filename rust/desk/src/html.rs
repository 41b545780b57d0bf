//! Text for HTML pages.

use crate::display::plain;

/// A text that may be anything, as the text of an element or the value of an attribute. What a terminal would follow is not
/// written raw either: some of it may not stand in a page, and the rest changes the direction of writing.
pub fn escaped(text: &str) -> String {
    let mut escaped = String::new();
    for character in plain(text).chars() {
        match character {
            '&' => escaped.push_str("&amp;"),
            '<' => escaped.push_str("&lt;"),
            '>' => escaped.push_str("&gt;"),
            '"' => escaped.push_str("&quot;"),
            '\'' => escaped.push_str("&#39;"),
            // What HTML has no characters for.
            '\u{fdd0}'..='\u{fdef}' => escaped.push('\u{fffd}'),
            _ if u32::from(character) & 0xfffe == 0xfffe => escaped.push('\u{fffd}'),
            _ => escaped.push(character),
        }
    }
    escaped
}

/// The same set apart from what stands around it, which it may not turn to its direction of writing. It is read from left to
/// right, as paths, terms and sentences are, whatever the names in it.
pub fn isolated(text: &str) -> String {
    format!("<bdi dir=\"ltr\">{}</bdi>", escaped(text))
}

#[cfg(test)]
mod tests {
    use super::escaped;

    #[test]
    fn no_text_ends_an_element_or_a_value() {
        let text = "<b title='x\">&amp;\u{1b}[31m\u{202e}\0\u{ffff}\u{1fffe}\u{fdd0}é\t";
        let wanted = "&lt;b title=&#39;x&quot;&gt;&amp;amp;\\u{1b}[31m\\u{202e}\\u{0}\u{fffd}\u{fffd}\u{fffd}é\t";
        assert_eq!(escaped(text), wanted);
    }
}
