//! What people call names and roles, by their labels.

use super::quotes;
use crate::display::counted;
use base::spelling::nearest;
use std::collections::BTreeMap;

/// What can be called something.
#[derive(Clone, Copy, Debug, PartialEq, Eq, PartialOrd, Ord)]
pub enum Sort {
    /// A name, by its label.
    Name,
    /// A role.
    Role,
}

/// Both.
pub const SORTS: [Sort; 2] = [Sort::Name, Sort::Role];

impl Sort {
    /// The word for it, with which its line begins.
    pub fn word(self) -> &'static str {
        match self {
            Sort::Name => "name",
            Sort::Role => "role",
        }
    }

    /// The letter that stands before its number.
    pub fn letter(self) -> char {
        match self {
            Sort::Name => 'c',
            Sort::Role => 'r',
        }
    }
}

/// What people call the names and the roles of a vocabulary, as far as they call them something.
#[derive(Clone, Debug, Default, PartialEq, Eq)]
pub struct Names {
    terms: Called,
    roles: Called,
}

/// What is called something, by number, and the numbers by what they are called.
#[derive(Clone, Debug, Default, PartialEq, Eq)]
struct Called {
    names: BTreeMap<u16, String>,
    numbers: BTreeMap<String, u16>,
}

impl Called {
    const fn new() -> Called {
        Called {
            names: BTreeMap::new(),
            numbers: BTreeMap::new(),
        }
    }

    fn name(&self, number: u16) -> Option<&str> {
        self.names.get(&number).map(String::as_str)
    }
}

/// Where nothing is called anything.
pub static NO_NAMES: Names = Names {
    terms: Called::new(),
    roles: Called::new(),
};

impl Names {
    fn of(&self, sort: Sort) -> &Called {
        match sort {
            Sort::Name => &self.terms,
            Sort::Role => &self.roles,
        }
    }

    /// Whether nothing is called anything.
    pub fn is_empty(&self) -> bool {
        SORTS.into_iter().all(|sort| self.of(sort).names.is_empty())
    }

    /// What the name of a label is called.
    pub fn term(&self, label: u16) -> Option<&str> {
        self.terms.name(label)
    }

    /// What a role is called.
    pub fn role(&self, role: u16) -> Option<&str> {
        self.roles.name(role)
    }

    /// What is called so, of a sort.
    pub fn find(&self, sort: Sort, called: &str) -> Option<u16> {
        self.of(sort).numbers.get(called).copied()
    }

    /// What a word stands for that something of a sort is called by, as texts have it: `c7` or `r0`.
    pub fn text_of(&self, sort: Sort, word: &str) -> Option<String> {
        let number = self.find(sort, word.trim())?;
        Some(format!("{}{number}", sort.letter()))
    }

    /// All that is called something, of a sort, by number.
    pub fn all(&self, sort: Sort) -> impl Iterator<Item = (u16, &str)> {
        let names = self.of(sort).names.iter();
        names.map(|(number, called)| (*number, called.as_str()))
    }

    /// What may have been meant by a word that nothing of a sort is called by. Of very many names, and of those of another
    /// length, none is looked at, so that it takes little time.
    pub fn meant(&self, sort: Sort, word: &str) -> Option<&str> {
        let length = word.chars().count();
        let is_near = |name: &&str| name.chars().count().abs_diff(length) <= 3;
        let names = self.all(sort).take(judge::RECORDS).map(|(_, name)| name);
        nearest(word, names.filter(is_near))
    }

    /// The longest name of a sort with which a text begins, as where quotation marks are left out. Of very many names, only
    /// some are looked at.
    pub fn begun(&self, sort: Sort, text: &str) -> Option<&str> {
        let is_whole = |rest: &str| !rest.starts_with(char::is_alphanumeric);
        let names = self.all(sort).take(judge::RECORDS).map(|(_, name)| name);
        let begun = names.filter(|name| text.strip_prefix(name).is_some_and(is_whole));
        begun.max_by_key(|name| name.len())
    }

    /// Calls one so, which is called nothing yet.
    pub fn call(&mut self, sort: Sort, number: u16, called: &str) {
        let all = match sort {
            Sort::Name => &mut self.terms,
            Sort::Role => &mut self.roles,
        };
        all.names.insert(number, called.to_string());
        all.numbers.insert(called.to_string(), number);
    }

    /// The lines that say so, as texts have them.
    pub fn lines(&self) -> String {
        let line = |sort: Sort, (number, called): (u16, &str)| {
            format!("{} {}{number} {}\n", sort.word(), sort.letter(), quotes::write(called))
        };
        let of_sort = |sort: Sort| self.all(sort).map(move |one| line(sort, one));
        SORTS.into_iter().flat_map(of_sort).collect()
    }

    /// How many names and roles are called something.
    pub fn tally(&self) -> String {
        SORTS
            .map(|sort| counted(self.all(sort).count() as u64, sort.word()))
            .join(" and ")
    }
}
