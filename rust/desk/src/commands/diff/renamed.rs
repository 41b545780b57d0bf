//! What names, roles and records are called, compared.

use super::records::{matched, Side};
use crate::display::plain;
use crate::input::Input;
use crate::json::Json;
use crate::text::names::Names;
use base::vocabulary::Saying;
use std::collections::BTreeSet;

/// What something is called otherwise.
pub struct Renamed {
    /// It: a name, a role or a record.
    what: String,
    /// What it was called, and what it is called.
    called: [Option<String>; 2],
}

impl Renamed {
    fn new(what: String, called: [Option<&str>; 2]) -> Option<Renamed> {
        let [old, new] = called;
        (old != new).then(|| Renamed {
            what,
            called: called.map(|called| called.map(str::to_string)),
        })
    }

    /// What people read.
    pub fn words(&self) -> String {
        let quoted = |called: &Option<String>| match called {
            Some(called) => format!("\"{}\"", plain(called)),
            None => "nothing".to_string(),
        };
        let [was, is] = self.called.each_ref().map(quoted);
        format!("{} was called {was}, is called {is}", self.what)
    }

    /// What programs read.
    pub fn json(&self) -> Json {
        let [old, new] = self.called.clone().map(Json::from);
        Json::object([("what", Json::from(self.what.as_str())), ("old", old), ("new", new)])
    }
}

/// What is called otherwise: names and roles by what they are called, and records by the comments on their lines where both
/// vocabularies have some.
pub fn find(inputs: [&Input; 2], old: &Side, new: &Side) -> Vec<Renamed> {
    let [first, second] = inputs.map(|input| &input.names);
    let mut renamed = Vec::new();
    for label in labels(old).intersection(&labels(new)) {
        let called = [first, second].map(|names: &Names| names.term(*label));
        renamed.extend(Renamed::new(format!("c{label}"), called));
    }
    let roles = [old, new].map(|side| side.written.vocabulary().get(0).b);
    for role in 0..roles.into_iter().min().unwrap_or_default() {
        let called = [first, second].map(|names: &Names| names.role(role));
        renamed.extend(Renamed::new(format!("r{role}"), called));
    }
    if has_comments(old) && has_comments(new) {
        for (a, b) in matched(old, new).pairs {
            let called = [old.written.words(a), new.written.words(b)];
            renamed.extend(Renamed::new(format!("record {b}"), called));
        }
    }
    renamed
}

/// Whether the text of a vocabulary has comments on its records.
fn has_comments(side: &Side) -> bool {
    let mut sayings = side.written.vocabulary().sayings();
    sayings.any(|(number, _)| side.written.words(number).is_some())
}

/// The labels of a vocabulary's names.
fn labels(side: &Side) -> BTreeSet<u16> {
    let sayings = side.written.vocabulary().sayings();
    let labels = sayings.filter_map(|(_, saying)| match saying {
        Saying::Name(label) => Some(label),
        _ => None,
    });
    labels.collect()
}
