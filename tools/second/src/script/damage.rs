//! Accepted scripts, damaged so that each refusal is met: alone, at many places, and together with
//! others, of which the first in table order is given.

use crate::cases::beginning;
use crate::random::Seed;
use crate::script::faults::{repeats, ways, wrong_headers, wrong_nexts};
use crate::script::plan::{refused, Base, Plan};
use crate::script::records::{
    is_step, replace, set, with, Script, Words, FIRST, KIND, NEXT, QUERY_A, QUERY_B, RECORD_BYTES, REDUCTION, TERM,
};
use crate::vocabulary;
use crate::vocabulary::{check_vocabulary, refused_before, Refusal};

/// The longest vocabularies, in bytes, that are taken from those that the vocabulary check refuses.
const SHORT: usize = 200;
/// How many of them are of each row.
const OF_EACH_ROW: usize = 8;

/// How many bytes of a script go with a vocabulary that is refused: none, or a header and more.
const BEGINNINGS: [usize; 4] = [0, RECORD_BYTES, RECORD_BYTES + 1, 2 * RECORD_BYTES];

/// Lengths of scripts, in bytes, that are too long.
const TOO_LONG: [usize; 4] = [32_767, 32_769, 32_784, 65_535];

/// The most records of the scripts that are damaged in every way.
const FEW: usize = 11;

/// A refusal of the form: its row, and the place of the record that meets it.
type Fault = (u8, usize);

/// What was put into a script.
enum Put {
    /// Nothing, since the record cannot have it.
    Nothing,
    /// A repeat of a term record.
    Repeat,
    /// A fault.
    Fault,
}

/// Where a fault stands in the order of the table: 15 to 18 record by record, then 19.
fn order((row, place): Fault) -> (bool, usize, u8) {
    (row == 19, place, row)
}

impl Base {
    /// How many records the script has.
    fn len(&self) -> usize {
        self.writer.records.len()
    }
}

impl Plan {
    /// All damages.
    pub fn damaged(&mut self, seed: Seed) {
        let bases = self.bases.clone();
        self.lengths(&bases);
        self.headers(&bases);
        self.every_way(&bases);
        for (i, base) in bases.iter().enumerate() {
            self.damages(base, 2 + i % 2);
        }
        self.refused_vocabularies(&bases, seed);
    }

    /// The damages of one script, one of them by so many faults together.
    pub fn damages(&mut self, base: &Base, together: usize) {
        self.one_of_each(base);
        self.repeat(base);
        self.chain_faults(base);
        self.mixtures(base, together);
        self.any_word(base);
    }

    /// Row 13 next to its limits, whatever the records hold.
    fn lengths(&mut self, bases: &[Base]) {
        for base in bases.iter().step_by(40) {
            let bytes = base.writer.bytes();
            let whole = bytes.len();
            for length in [0, 1, 8, 15, 17, 31, 33, whole - 1, whole - 8] {
                self.add(&base.vocabulary, beginning(&bytes, length), &refused(13, 0));
            }
            self.add(&base.vocabulary, [&bytes[..], &[0]].concat(), &refused(13, 0));
        }
        for (base, length) in bases
            .iter()
            .take(1)
            .flat_map(|base| TOO_LONG.map(|length| (base, length)))
        {
            let mut bytes = base.writer.bytes();
            bytes.resize(length, 0);
            self.add(&base.vocabulary, bytes, &refused(13, 0));
        }
    }

    /// Rows 14 and 10, each alone, together, and before a fault of row 15.
    fn headers(&mut self, bases: &[Base]) {
        for base in bases.iter().step_by(60) {
            let header = base.writer.record(0);
            for (i, wrong) in wrong_headers(header).into_iter().enumerate() {
                let query = with(wrong, QUERY_A + i % 2, 0);
                let header = if i % 3 == 0 { wrong } else { query };
                self.with_header(base, header, &refused(14, 0), i % 5 == 0);
            }
            for (i, number) in self.no_terms(base).into_iter().enumerate() {
                let meant = refused(10, number.into());
                let a = with(header, QUERY_A, number);
                self.with_header(base, a, &meant, i % 3 == 0);
                self.with_header(base, with(header, QUERY_B, number), &meant, i % 3 == 1);
                self.with_header(base, with(a, QUERY_B, 65535 - number), &meant, false);
            }
        }
    }

    /// Numbers that are no term: the header, a statement, and past the end.
    fn no_terms(&mut self, base: &Base) -> Vec<u16> {
        let records = base.matrix().records;
        let count = records.len() as u16;
        let statements = (0..).zip(&records).filter(|(_, r)| r.is_statement());
        let statements: Vec<u16> = statements.map(|(number, _)| number).collect();
        let mut numbers = vec![0, count, count + 1, 256 + 1, 65535];
        numbers.extend(self.random.pick(&statements));
        numbers
    }

    /// The script with another header, and, if asked, a record of no kind.
    fn with_header(&mut self, base: &Base, header: Words, meant: &str, kind: bool) {
        let mut records = base.writer.records.clone();
        replace(&mut records, 0, header);
        if kind {
            set(&mut records, 1, KIND, 0);
        }
        self.add_records(&base.vocabulary, &records, meant);
    }

    /// Every way to meet rows 15 to 19 in some small scripts.
    fn every_way(&mut self, bases: &[Base]) {
        for base in varied(bases).take(3) {
            let script = base.script();
            for place in 0..script.records.len() {
                self.wrong_links(base, &script, place);
            }
            for place in 1..script.records.len() {
                let rows = (15..=18).flat_map(|row| ways(row, &script, place).into_iter().map(move |way| (way, row)));
                for (wrong, row) in rows {
                    self.with_record(base, place, wrong, &refused(row, place));
                }
                for again in repeats(&script, place) {
                    self.with_record(base, place, again, "");
                }
            }
        }
    }

    /// The script with another record at a place.
    fn with_record(&mut self, base: &Base, place: usize, record: Words, meant: &str) {
        let mut records = base.writer.records.clone();
        replace(&mut records, place, record);
        self.add_records(&base.vocabulary, &records, meant);
    }

    /// Every way to meet row 19 at a place.
    fn wrong_links(&mut self, base: &Base, script: &Script, place: usize) {
        for next in wrong_nexts(script, place) {
            if let Some(records) = relinked(script, place, next) {
                self.add_records(&base.vocabulary, &records, &refused(19, place));
            }
        }
    }

    /// Rows 15 to 19 once each in a script, at random places.
    fn one_of_each(&mut self, base: &Base) {
        for row in 15..=19 {
            if self.random.chance(3) {
                self.mixture(base, &[row]);
            }
        }
    }

    /// A script with one of its term records once more, at its end.
    fn repeat(&mut self, base: &Base) {
        let mut records = base.writer.records.clone();
        let terms: Vec<Words> = records.iter().filter(|r| r[KIND] == TERM).copied().collect();
        if let (Some(term), true) = (self.random.pick(&terms), self.random.chance(4)) {
            records.push(term);
            let meant = format!("accepted {}", base.writer.chain.len());
            self.add_records(&base.vocabulary, &records, &meant);
        }
    }

    /// Faults of so many random rows in a script.
    fn mixtures(&mut self, base: &Base, count: usize) {
        let rows: Vec<u8> = (0..count)
            .filter_map(|_| self.random.pick(&[15, 16, 16, 17, 17, 18, 18, 19, 19]))
            .collect();
        self.mixture(base, &rows);
    }

    /// A script with a fault of each of the rows, at random places or at one: the first in the order
    /// of the table is put in last, so that the others cannot undo it.
    fn mixture(&mut self, base: &Base, rows: &[u8]) {
        let shared = 1 + self.random.below(base.len() - 1);
        let together = self.random.chance(3);
        let mut faults: Vec<Fault> = Vec::new();
        for row in rows {
            let place = if together { shared } else { self.place_for(*row, base) };
            faults.push((*row, place));
        }
        faults.sort_by_key(|fault| std::cmp::Reverse(order(*fault)));
        faults.dedup();
        let mut script = base.script();
        let mut meant = None;
        for (row, place) in faults {
            match self.put_in(&mut script, (row, place)) {
                Put::Nothing => {}
                Put::Repeat => meant = Some(meant.unwrap_or_default()),
                Put::Fault => meant = Some(refused(row, place)),
            }
        }
        if let Some(meant) = meant {
            self.add_records(&base.vocabulary, &script.records, &meant);
        }
    }

    /// A random place at which a row can be met.
    fn place_for(&mut self, row: u8, base: &Base) -> usize {
        let script = base.script();
        let can = |place: &usize| match row {
            19 => relinked(&script, *place, 0).is_some(),
            _ => *place > 0 && !ways(row, &script, *place).is_empty(),
        };
        let places: Vec<usize> = (0..base.len()).filter(can).collect();
        self.random.pick(&places).unwrap_or(1)
    }

    /// Puts a fault in, where the record can have it; for row 17 it may be a repeat, which is none.
    fn put_in(&mut self, script: &mut Script, (row, place): Fault) -> Put {
        if row == 19 {
            let next = self.random.pick(&wrong_nexts(script, place)).unwrap_or(1);
            let Some(records) = relinked(script, place, next) else {
                return Put::Nothing;
            };
            script.records = records;
            return Put::Fault;
        }
        let again = if row == 17 { repeats(script, place) } else { Vec::new() };
        let Some(record) = self.random.pick(&[ways(row, script, place), again.clone()].concat()) else {
            return Put::Nothing;
        };
        replace(&mut script.records, place, record);
        if again.contains(&record) {
            Put::Repeat
        } else {
            Put::Fault
        }
    }

    /// A script with one word changed, whatever comes of it.
    fn any_word(&mut self, base: &Base) {
        let mut records = base.writer.records.clone();
        let at = self.random.below(records.len());
        let word = self.random.below(8);
        let small = self.random.below(records.len()) as u16;
        let now = base.script().word(at, word);
        let values = [small, small % 4, now ^ 1, self.random.number()];
        set(&mut records, at, word, self.random.pick(&values).unwrap_or(0));
        self.add_records(&base.vocabulary, &records, "");
    }

    /// Some of the short vocabularies that each row of the vocabulary check refuses, with the
    /// beginnings of scripts.
    fn refused_vocabularies(&mut self, bases: &[Base], seed: Seed) {
        let all = vocabulary::earlier(seed)
            .into_iter()
            .map(|planned| planned.case.vocabulary);
        let short = all.filter(|vocabulary| vocabulary.len() <= SHORT);
        let answered = short.map(|v| (refused_before(&v), v));
        let refused_ones: Vec<(Refusal, Vec<u8>)> = answered.filter_map(|(refusal, v)| Some((refusal?, v))).collect();
        for row in 1..=8 {
            let of_row = refused_ones.iter().filter(|(refusal, _)| refusal.number == row);
            let of_row: Vec<_> = of_row.collect();
            for _ in 0..OF_EACH_ROW {
                if let Some((_, vocabulary)) = self.random.pick(&of_row) {
                    self.with_a_beginning(vocabulary, bases);
                }
            }
        }
    }

    /// A vocabulary, which may be refused, with the beginning of a script.
    pub fn with_a_beginning(&mut self, vocabulary: &[u8], bases: &[Base]) {
        let base = bases.get(self.random.below(bases.len()));
        let length = self.random.pick(&BEGINNINGS).unwrap_or(0);
        let meant = match check_vocabulary(vocabulary) {
            Err(refusal) => refused(refusal.number, refusal.place),
            Ok(_) => String::new(),
        };
        if let Some(base) = base {
            self.add(vocabulary, beginning(&base.writer.bytes(), length), &meant);
        }
    }
}

/// The records with another next of a holder (0: the header's w3), which has to be a step.
fn relinked(script: &Script, holder: usize, next: u16) -> Option<Vec<Words>> {
    let mut records = script.records.clone();
    let word = if holder == 0 { FIRST } else { NEXT };
    let holds = holder == 0 || is_step(script.word(holder, KIND));
    set(&mut records, holder, word, next);
    holds.then_some(records)
}

/// The scripts with few records but a term and a reduction among them.
fn varied(bases: &[Base]) -> impl Iterator<Item = &Base> {
    let has = |base: &Base, kind: u16| base.writer.records.iter().any(|r| r[KIND] == kind);
    let few = bases.iter().filter(|base| base.len() <= FEW);
    few.filter(move |base| has(base, TERM) && has(base, REDUCTION))
}
