//! The progress bar, on a terminal only.

use crate::console::is_plain_terminal;
use crate::display::counted;
use std::io::{self, IsTerminal, Write};
use std::time::{Duration, Instant};

/// The width of the bar.
const WIDTH: u64 = 30;
/// How long the bar stays as it is.
const PAUSE: Duration = Duration::from_millis(100);

/// The progress bar.
pub struct Progress {
    /// The bytes of the table, where they are known.
    length: Option<u64>,
    /// Whether there is a terminal for it.
    is_shown: bool,
    /// Whether answers go to a terminal as well.
    is_shared: bool,
    is_drawn: bool,
    drawn: Option<Instant>,
}

impl Progress {
    /// A bar for a table of this length.
    pub fn new(length: Option<u64>, quiet: bool) -> Progress {
        Progress {
            length,
            is_shown: !quiet && io::stderr().is_terminal() && !is_plain_terminal(),
            is_shared: io::stdout().is_terminal(),
            is_drawn: false,
            drawn: None,
        }
    }

    /// Draws the bar, if it was not drawn just now.
    pub fn show(&mut self, read: u64, lines: u64, failing: u64) {
        if !self.is_shown || self.drawn.is_some_and(|drawn| drawn.elapsed() < PAUSE) {
            return;
        }
        self.drawn = Some(Instant::now());
        self.is_drawn = true;
        let text = text(self.length, read, lines, failing);
        let _ = write!(io::stderr(), "\r{text}\x1b[K");
    }

    /// Takes the bar away where answers are written next to it.
    pub fn make_room(&mut self) {
        if self.is_shared {
            self.clear();
        }
    }

    /// Takes the bar away.
    pub fn clear(&mut self) {
        if std::mem::take(&mut self.is_drawn) {
            let _ = write!(io::stderr(), "\r\x1b[2K");
        }
    }
}

fn text(length: Option<u64>, read: u64, lines: u64, failing: u64) -> String {
    let bar = match length {
        Some(length) if length > 0 => {
            let filled = read.min(length).saturating_mul(WIDTH) / length;
            let bar: String = (0..WIDTH).map(|i| if i < filled { '#' } else { '.' }).collect();
            format!("[{bar}] ")
        }
        _ => String::new(),
    };
    format!("{bar}{}, {failing} do not hold", counted(lines, "line"))
}

#[cfg(test)]
mod tests {
    use super::text;

    #[test]
    fn the_bar_is_filled_by_bytes() {
        let expected = "[###############...............] 1,000 lines, 2 do not hold";
        assert_eq!(text(Some(20), 10, 1000, 2), expected);
        assert_eq!(
            text(Some(20), 0, 0, 0),
            format!("[{}] 0 lines, 0 do not hold", ".".repeat(30))
        );
        // A table that grows while it is read.
        assert!(text(Some(20), 25, 1, 0).starts_with(&format!("[{}] 1 line,", "#".repeat(30))));
        assert_eq!(text(None, 10, 1, 1), "1 line, 1 do not hold");
        assert_eq!(text(Some(0), 0, 1, 0), "1 line, 0 do not hold");
    }
}
