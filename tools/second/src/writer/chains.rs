//! Statements and terms added to vocabularies whose statements are on the chain and off it.

use crate::vocabulary::faults::right_nexts;
use crate::vocabulary::records::Record;
use crate::vocabulary::Draft;
use crate::writer::file::Call;
use crate::writer::plan::{length, Plan};

/// The most statements of which all chains are tried.
const MOST_STATEMENTS: usize = 4;
/// Numbers of records, and of statements from one on the chain to the next.
const LONG: [(usize, usize); 14] = [
    (100, 1),
    (255, 1),
    (256, 1),
    (257, 1),
    (258, 2),
    (300, 3),
    (400, 50),
    (510, 1),
    (511, 1),
    (511, 2),
    (511, 4),
    (511, 127),
    (511, 254),
    (511, 508),
];
/// How many random chains there are.
const RANDOM: usize = 300;

/// All vocabularies over the statements of one, whose header and statements have every next that may stand.
fn all_chains(draft: &Draft) -> Vec<Draft> {
    let statements = draft.statements();
    let holders = std::iter::once(0).chain(statements.iter().map(|number| usize::from(*number)));
    let mut all = vec![draft.clone()];
    for holder in holders {
        let linked = |draft: &Draft| {
            let nexts = right_nexts(draft, holder).into_iter();
            let with = |next| {
                let mut linked = draft.clone();
                linked.link(holder, next);
                linked
            };
            nexts.map(with).collect::<Vec<_>>()
        };
        all = all.iter().flat_map(linked).collect();
    }
    all
}

impl Plan {
    /// Vocabularies of up to four statements with every chain that they can have; to each a statement is added, and to
    /// some a term.
    pub fn small_chains(&mut self) {
        for statements in 0..=MOST_STATEMENTS {
            let mut draft = Draft::new(1);
            draft.records.push(Record::new(3, 7, 0, 0));
            for _ in 0..statements {
                if self.random.chance(2) {
                    draft.records.push(Record::new(1, 0, 0, 0));
                }
                draft.records.push(Record::new(9, 1, 1, 0));
            }
            for chained in all_chains(&draft) {
                self.statement(&chained);
                if self.random.chance(3) {
                    let term = Record::new(4, 1, 0, 0);
                    self.add_accepted(&chained, term);
                }
            }
        }
    }

    /// Adds a case that adds a statement which is not refused.
    fn statement(&mut self, draft: &Draft) {
        let vocabulary = draft.bytes();
        let [a, b] = [0; 2].map(|_| self.random.pick(&draft.terms()).unwrap_or(1));
        let meant = length(vocabulary.len() + 8);
        self.add(&vocabulary, Call::Statement { a, b }, meant);
    }

    /// Random vocabularies with about half of their statements chained, and the others linked among themselves and into
    /// the chain.
    pub fn chains(&mut self) {
        for _ in 0..RANDOM {
            let count = 3 + self.random.below(30);
            let mut draft = Draft::random(2, count, &mut self.random);
            for _ in 0..self.random.below(6) {
                draft.records.extend(draft.valid(9, &mut self.random));
            }
            draft.chain_random(&mut self.random);
            self.statement(&draft);
        }
    }

    /// Chains of many statements, all of them or every so many, and numbers of two bytes.
    pub fn long_chains(&mut self) {
        for (count, step) in LONG {
            let mut draft = Draft::new(0);
            draft.records.push(Record::new(1, 0, 0, 0));
            while draft.records.len() < count {
                draft.records.push(Record::new(9, 1, 1, 0));
            }
            let on: Vec<u16> = draft.statements().into_iter().step_by(step).collect();
            draft.chain(&on);
            self.statement(&draft);
            let term = Record::new(4, 1, 0, 0);
            self.add_accepted(&draft, term);
            // The chain's last statement off it, so that the chain ends one earlier.
            if let [.., before, _] = on[..] {
                draft.link(usize::from(before), 0);
                self.statement(&draft);
            }
        }
        for count in [254, 255, 256, 257, 300, 511] {
            let draft = self.vocabulary(count);
            self.statement(&draft);
        }
    }
}
