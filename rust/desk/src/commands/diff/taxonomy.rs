//! How the names of two vocabularies stand to each other, as the library classifies them.

use super::records::Side;
use crate::taxonomy::{Class, Taxonomy};
use std::collections::{BTreeMap, BTreeSet};

/// How a name stands to the others, by their labels.
#[derive(Debug, PartialEq, Eq)]
struct Standing {
    equal: BTreeSet<u16>,
    broader: BTreeSet<u16>,
    empty: bool,
    full: bool,
}

/// The names of a vocabulary, as it is classified.
pub struct Names<'a> {
    side: &'a Side,
    /// The record of each label, and how its name stands.
    standings: BTreeMap<u16, (u16, Standing)>,
    contradictory: bool,
}

/// A name that stands otherwise.
pub struct Moved {
    /// Its record in the old vocabulary, and in the new one.
    pub records: [u16; 2],
    /// How it stood, and how it stands.
    pub words: [String; 2],
}

impl<'a> Names<'a> {
    /// Asks the library; nothing where there are too many atoms.
    pub fn ask(side: &'a Side) -> Option<Names<'a>> {
        let taxonomy = Taxonomy::ask(&side.written.vocabulary().bytes()).ok()?;
        let standings = taxonomy.names().into_iter().map(|(record, class)| {
            let standing = standing(side, &taxonomy, record, class);
            (label(side, record), (record, standing))
        });
        Some(Names {
            standings: standings.collect(),
            contradictory: taxonomy.is_contradictory(),
            side,
        })
    }

    /// Whether no interpretation satisfies the statements.
    pub fn is_contradictory(&self) -> bool {
        self.contradictory
    }

    /// The names of both that stand otherwise in the new one.
    pub fn moved(&self, new: &Names) -> Vec<Moved> {
        let mut moved = Vec::new();
        for (label, (record, before)) in &self.standings {
            if let Some((other, after)) = new.standings.get(label).filter(|(_, after)| after != before) {
                moved.push(Moved {
                    records: [*record, *other],
                    words: [self.words(before), new.words(after)],
                });
            }
        }
        moved.sort_by_key(|moved| moved.records);
        moved
    }

    fn words(&self, standing: &Standing) -> String {
        let equal = match standing.equal.is_empty() {
            true => String::new(),
            false => format!(", equal to {}", self.called(&standing.equal)),
        };
        let place = match standing {
            Standing { empty: true, .. } => return "empty".to_string(),
            Standing { full: true, .. } => "equal to owl:Thing".to_string(),
            Standing { broader, .. } if broader.is_empty() => "below owl:Thing".to_string(),
            Standing { broader, .. } => format!("below {}", self.called(broader)),
        };
        format!("{place}{equal}")
    }

    fn called(&self, labels: &BTreeSet<u16>) -> String {
        let records = labels.iter().filter_map(|label| self.standings.get(label));
        let names: Vec<String> = records.map(|(record, _)| self.side.written.called(*record)).collect();
        names.join(" and ")
    }
}

/// The label of a name.
fn label(side: &Side, record: u16) -> u16 {
    side.written.vocabulary().get(usize::from(record)).a
}

fn standing(side: &Side, taxonomy: &Taxonomy, record: u16, class: &Class) -> Standing {
    let labels = |records: &[u16]| records.iter().map(|record| label(side, *record)).collect();
    let others: Vec<u16> = class.names.iter().copied().filter(|name| *name != record).collect();
    Standing {
        equal: labels(&others),
        broader: labels(&taxonomy.broader_names(class)),
        empty: class.empty,
        full: class.full,
    }
}
