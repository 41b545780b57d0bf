//! The lines of a text, with the records that they make: all of them are read, faulty or not.

use super::cursor::{Cursor, Fault};
use super::numbers::{take_number, Numbers};
use super::said::{Said, Says, Term};
use super::Line;
use crate::display::grouped;

/// The most faults that are kept. At the next, reading ends.
pub const FAULTS: usize = 1_000;
/// The most records, whose numbers have 16 bits.
pub const RECORDS: usize = 1 << 16;

/// A record as it was read: whether it is on the chain, the link where one is written, and what it says.
pub struct Linked<T> {
    /// The record.
    pub record: T,
    /// Whether it is on the chain.
    pub on: bool,
    /// The link, where one is written.
    pub link: Option<u16>,
    /// What later lines may refer to.
    pub says: Says,
}

impl<T> Linked<T> {
    /// A record that is not on the chain by itself.
    pub fn unchained(record: T, says: Says) -> Linked<T> {
        Linked {
            record,
            on: false,
            link: None,
            says,
        }
    }

    /// Leaves open what its term is made of: numbers show that an operand may not be the one that was meant.
    fn leave_open(&mut self) {
        if let Says::Term(term) = self.says {
            self.says = Says::Term(Term::of_kind(term.kind));
        }
    }
}

/// Why a line cannot be read, and what it may say all the same.
pub struct Unread {
    /// What is wrong.
    pub fault: Fault,
    /// What later lines may refer to.
    pub says: Says,
}

impl Unread {
    /// For a line that says no term, whatever is wrong with it.
    pub fn no_term(fault: Fault) -> Unread {
        Unread {
            fault,
            says: Says::Nothing,
        }
    }
}

impl From<Fault> for Unread {
    fn from(fault: Fault) -> Unread {
        Unread {
            fault,
            says: Says::Anything,
        }
    }
}

/// The records of a line. There is at least one.
pub type Records<T> = Result<Vec<Linked<T>>, Unread>;

/// How the records of a text are read.
pub struct Form<T> {
    /// Reads the header, of which the first word is taken.
    pub header: fn(&mut Cursor) -> Result<Linked<T>, Unread>,
    /// Reads a line, by what is said before it.
    pub record: fn(&mut Cursor, &mut Said) -> Records<T>,
    /// The record of a term that is made.
    pub made: fn(Term) -> T,
    /// Gives the record of a number its link.
    pub set_link: fn(&mut T, usize, u16),
}

impl<T: Default> Form<T> {
    /// The records of a text, each with its line, or the faults in the order of the lines. After a faulty line reading goes on.
    pub fn read<'a>(
        &self,
        said: Said,
        mut header: Cursor<'a>,
        lines: impl Iterator<Item = Cursor<'a>>,
    ) -> Result<(Vec<T>, Vec<Line>), Vec<Fault>> {
        let mut reading = Reading::new(self, said);
        reading.header(&mut header);
        let mut faults = header.into_faults();
        for mut line in lines {
            let has_room = reading.line(&mut line);
            faults.append(&mut line.into_faults());
            if !has_room || faults.len() > FAULTS {
                break;
            }
        }
        if faults.is_empty() {
            Ok((self.chained(reading.all), reading.lines))
        } else {
            Err(shortened(faults))
        }
    }

    /// The records with their links. One that is not linked, as a term, keeps what is written.
    fn chained(&self, all: Vec<Linked<T>>) -> Vec<T> {
        let links = links(&all);
        let linked = all.into_iter().zip(links).enumerate();
        let set = |(number, (mut linked, link)): (usize, (Linked<T>, u16))| {
            if number == 0 || linked.on || linked.link.is_some() {
                (self.set_link)(&mut linked.record, number, link);
            }
            linked.record
        };
        linked.map(set).collect()
    }
}

/// The records that were read so far.
struct Reading<'f, T> {
    form: &'f Form<T>,
    said: Said,
    all: Vec<Linked<T>>,
    /// The line of each.
    lines: Vec<Line>,
    numbers: Numbers,
}

impl<T: Default> Reading<'_, T> {
    fn new(form: &Form<T>, said: Said) -> Reading<'_, T> {
        Reading {
            form,
            said,
            all: Vec::new(),
            lines: Vec::new(),
            numbers: Numbers::default(),
        }
    }

    /// Reads the header.
    fn header(&mut self, line: &mut Cursor) {
        let place = line.place();
        let read = (self.form.header)(line);
        let read = read.map(|header| vec![header]);
        let all = self.noted(line, read);
        self.push(all, &place);
    }

    /// Reads a line: the records that are made for it, then its own. Answers whether there is room for them.
    fn line(&mut self, line: &mut Cursor) -> bool {
        let (place, start) = (line.place(), line.here());
        let written = take_number(line);
        self.said.begin(self.all.len());
        let read = (self.form.record)(line, &mut self.said);
        let is_open = read.is_err() || self.said.is_unsure() || !line.at_end();
        let mut own = self.noted(line, read);
        let made = self.said.take_made();
        let first = self.all.len() + made.len();
        if first + own.len() > RECORDS {
            line.note(start, "this is one record too many; their numbers end at 65535");
            return false;
        }
        self.numbers.made(&made, is_open && self.said.makes());
        self.numbers.check(line, written, first);
        if !made.is_empty() && self.numbers.are_off() {
            own.iter_mut().for_each(Linked::leave_open);
        }
        let of_made = |term| Linked::unchained((self.form.made)(term), Says::Term(term));
        self.push(made.into_iter().map(of_made).collect(), &place.of_made());
        self.push(own, &place);
        true
    }

    /// The records of a line, of which is noted what is wrong. A line that cannot be read has a record, too, so that the
    /// numbers of later ones stay right.
    fn noted(&mut self, line: &mut Cursor, read: Records<T>) -> Vec<Linked<T>> {
        match (read, line.end()) {
            (Ok(all), Ok(())) => all,
            (Ok(all), Err(fault)) => {
                line.stop(fault);
                self.rest(line.clone());
                all
            }
            (Err(Unread { fault, says }), _) => {
                // What comes after a guess and is wrong makes the guess doubtful.
                let is_doubtful = line.is_guessed() && !self.all.is_empty();
                let says = if is_doubtful { Says::Anything } else { says };
                line.stop(fault);
                vec![Linked::unchained(T::default(), says)]
            }
        }
    }

    /// Adds what the rest of a line says after its record, where lines were run together.
    fn rest(&mut self, mut line: Cursor) {
        let number = u16::try_from(self.all.len()).unwrap_or(u16::MAX);
        loop {
            line.skip_digits();
            line.skip(':');
            let Ok(all) = (self.form.record)(&mut line, &mut self.said) else {
                break;
            };
            for linked in all {
                self.said.add(number, linked.says);
            }
        }
    }

    /// Adds records of a line.
    fn push(&mut self, all: Vec<Linked<T>>, line: &Line) {
        for linked in all {
            if let Ok(number) = u16::try_from(self.all.len()) {
                self.said.add(number, linked.says);
            }
            self.all.push(linked);
            self.lines.push(line.clone());
        }
    }
}

/// The link of each record: the one that is written, else the next record on the chain, and 0 for one off it.
fn links<T>(read: &[Linked<T>]) -> Vec<u16> {
    let on: Vec<bool> = read.iter().map(|linked| linked.on).collect();
    let link = |(number, linked): (usize, &Linked<T>)| match linked.link {
        Some(link) => link,
        None if linked.on || number == 0 => base::chain::default_link(&on, number),
        None => 0,
    };
    read.iter().enumerate().map(link).collect()
}

/// The link that may stand at the end of a line, after this word.
pub fn read_link(line: &mut Cursor, word: &str) -> Result<Option<u16>, Fault> {
    // Where no such word stands, the end of the line is expected.
    if line.at_end() || line.expect(word).is_err() {
        return Ok(None);
    }
    line.number().map(Some)
}

/// Faults of two sorts of lines, in the order of the lines.
pub fn merged(mut faults: Vec<Fault>, mut others: Vec<Fault>) -> Vec<Fault> {
    faults.append(&mut others);
    faults.sort_by_key(|fault| (fault.line, fault.column));
    shortened(faults)
}

/// The faults that are kept; the last says that there are more.
fn shortened(mut faults: Vec<Fault>) -> Vec<Fault> {
    faults.truncate(FAULTS + 1);
    if let Some(last) = faults.get_mut(FAULTS) {
        last.message = format!("reading ends here, after {} faults", grouped(FAULTS as u64));
    }
    faults
}
