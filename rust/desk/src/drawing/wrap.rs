//! Long texts in several lines.

use crate::display::beginning;

/// The most lines of a text.
const LINES: usize = 3;
/// What a line begins with that goes on.
pub const INDENT: &str = "\u{a0}";

/// The lines of a text, each of at most so many characters and the mark of what is left out. They end at blanks, where there
/// are some.
pub fn wrap(text: &str, most: usize) -> Vec<String> {
    let (mut lines, mut rest) = (Vec::new(), text);
    while lines.len() + 1 < LINES && rest.chars().count() > most {
        let end = rest.char_indices().nth(most).map_or(rest.len(), |(end, _)| end);
        let front = rest.get(..end).unwrap_or_default();
        // A blank far to the left is none to end at.
        let blank = front
            .rfind(' ')
            .filter(|blank| front.get(..*blank).is_some_and(|kept| kept.len() > end / 3));
        let (line, after) = rest.split_at_checked(blank.unwrap_or(end)).unwrap_or((rest, ""));
        lines.push(line.trim_end().to_string());
        rest = after.trim_start();
    }
    lines.push(beginning(rest, most));
    for line in lines.iter_mut().skip(1) {
        line.insert_str(0, INDENT);
    }
    lines
}
