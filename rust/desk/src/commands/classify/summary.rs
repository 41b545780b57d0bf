//! How many vocabularies came out how.

use crate::display::grouped;
use crate::json::Json;
use crate::report::{Report, Stop, Style};
use base::Status;

/// How many vocabularies came out how.
pub struct Tally {
    /// How many are to be classified.
    wanted: usize,
    classified: usize,
    /// Those that the library refuses, and texts that have a fault or are of something else.
    refused: usize,
    not_readable: usize,
    /// The greatest exit status of one.
    pub status: Status,
}

impl Tally {
    /// Of none so far.
    pub fn new(wanted: usize) -> Tally {
        Tally {
            wanted,
            classified: 0,
            refused: 0,
            not_readable: 0,
            status: Status::Holds,
        }
    }

    /// Counts one.
    pub fn add(&mut self, answered: &Result<Report, Stop>) {
        let count = match answered {
            Ok(_) => &mut self.classified,
            Err(Stop::Answer(_)) => &mut self.refused,
            Err(Stop::Failure(failure)) if failure.status == Status::Refused => &mut self.refused,
            Err(Stop::Failure(_)) => &mut self.not_readable,
        };
        *count += 1;
    }

    /// Whether all are classified.
    pub fn is_whole(&self) -> bool {
        self.classified == self.wanted
    }

    /// The answer about all, with remarks at its end.
    pub fn report(&self, style: Style, remarks: impl Iterator<Item = String>) -> Report {
        let [classified, refused, not_readable] =
            [self.classified, self.refused, self.not_readable].map(|count| grouped(count as u64));
        let (colour, verdict) = match self.is_whole() {
            true => (Status::Holds, "all classified"),
            false => (Status::DoesNotHold, "not all classified"),
        };
        let classified = style.paint(colour, &format!("{classified} classified"));
        let remarks: String = remarks.map(|remark| format!("; {remark}")).collect();
        let text = format!(
            "{} vocabularies: {classified}, {refused} refused, {not_readable} not readable{remarks}\n",
            grouped(self.wanted as u64)
        );
        let json = vec![
            ("verdict", Json::from(verdict)),
            ("vocabularies", Json::from(self.wanted)),
            ("classified", Json::from(self.classified)),
            ("refused", Json::from(self.refused)),
            ("not_readable", Json::from(self.not_readable)),
        ];
        Report::new(self.status, text, json)
    }
}
