//! The expected output, and the table of how many cases meet each refusal.

use crate::vocabulary::call::{check_vocabulary, find_record, Refusal};
use crate::vocabulary::file::Case;
use crate::vocabulary::records::RECORD_BYTES;

/// The numbers of an answer: 0 and the value, or the refusal's number and place.
fn numbers(answer: Result<usize, Refusal>) -> [usize; 2] {
    match answer {
        Ok(value) => [0, value],
        Err(refusal) => [usize::from(refusal.number), refusal.place],
    }
}

/// The line of a case, with its line end.
fn line(case: &Case) -> String {
    let found = find_record(&case.vocabulary, case.number);
    let mut all = numbers(check_vocabulary(&case.vocabulary)).to_vec();
    all.extend(numbers(found));
    if let Ok(offset) = found {
        let bytes = case.vocabulary.iter().skip(offset).take(RECORD_BYTES);
        all.extend(bytes.copied().map(usize::from));
    }
    let words: Vec<String> = all.iter().map(usize::to_string).collect();
    words.join(" ") + "\n"
}

/// The expected output for cases: a line for each.
pub fn lines(cases: &[Case]) -> String {
    cases.iter().map(line).collect()
}

/// The answers to the cases.
pub struct Table {
    /// Those of the vocabulary check.
    checks: Vec<Result<usize, Refusal>>,
    /// Those of the record call.
    calls: Vec<Result<usize, Refusal>>,
}

/// The refusals that the cases have to meet.
const ROWS: [u8; 10] = [1, 2, 3, 4, 5, 6, 7, 8, 9, 28];

/// How many of the answers are a refusal of this number, or accept, for number 0.
fn count(answers: &[Result<usize, Refusal>], number: u8) -> usize {
    answers
        .iter()
        .filter(|answer| numbers(**answer)[0] == usize::from(number))
        .count()
}

impl Table {
    /// The table of the cases.
    pub fn of(cases: &[Case]) -> Table {
        Table {
            checks: cases.iter().map(|case| check_vocabulary(&case.vocabulary)).collect(),
            calls: cases
                .iter()
                .map(|case| find_record(&case.vocabulary, case.number))
                .collect(),
        }
    }

    /// The different places at which a refusal is met, in order.
    fn places(&self, number: u8) -> Vec<usize> {
        let refusals = self.checks.iter().chain(&self.calls).filter_map(|answer| answer.err());
        let met = refusals.filter(|refusal| refusal.number == number);
        let mut places: Vec<usize> = met.map(|refusal| refusal.place).collect();
        places.sort_unstable();
        places.dedup();
        places
    }

    /// The refusals that no case meets.
    pub fn never_met(&self) -> Vec<u8> {
        ROWS.into_iter()
            .filter(|number| self.places(*number).is_empty())
            .collect()
    }

    /// The table as text. Row 0 counts the cases that are accepted.
    pub fn text(&self) -> String {
        let mut text = format!("{} cases\n", self.checks.len());
        text += "refusal   check  record call  places  first  last\n";
        for number in std::iter::once(0).chain(ROWS) {
            let (checks, calls) = (count(&self.checks, number), count(&self.calls, number));
            let places = self.places(number);
            let first = places.first().copied().unwrap_or(0);
            let last = places.last().copied().unwrap_or(0);
            let different = places.len();
            text += &format!("{number:7}  {checks:6}  {calls:11}  {different:6}  {first:5}  {last}\n");
        }
        text
    }
}
