//! The terms that were made for the lines of a text.

use crate::display::counted;
use crate::input::Input;
use crate::json::Json;
use crate::text::vocabulary::Written;
use base::vocabulary::{Saying, Vocabulary};

/// The terms that were made for the lines of a vocabulary's text.
pub struct Made {
    written: Written,
    records: Vec<u16>,
}

impl Made {
    /// Those of an input; none where it is no text.
    pub fn of(input: &Input) -> Made {
        Made {
            written: Written::new(Vocabulary::read(&input.bytes)).with_names(input.names.clone()),
            records: input.made(),
        }
    }

    /// How many there are, and which names are among them, since a mistyped label is a name more. Nothing where there are none.
    pub fn words(&self) -> Option<String> {
        let made = self.records.iter().copied();
        let names: Vec<String> = made
            .filter(|record| self.is_name(*record))
            .map(|name| self.written.called(name))
            .collect();
        let among = match names.len() {
            0 => "no names among them".to_string(),
            count => format!("{} among them: {}", counted(count as u64, "name"), names.join(", ")),
        };
        let terms = counted(self.records.len() as u64, "term");
        (!self.records.is_empty()).then(|| format!("made {terms} that no line says, {among}"))
    }

    fn is_name(&self, record: u16) -> bool {
        let saying = self.written.vocabulary().get(record.into()).saying();
        matches!(saying, Some(Saying::Name(_)))
    }

    /// The same for programs.
    pub fn json(&self) -> (&'static str, Json) {
        let made = self.records.iter().map(|record| self.written.term_json(*record));
        ("made", Json::list(made))
    }
}
