//! JSON as tests read it.

#![allow(dead_code, missing_docs, clippy::unwrap_used, clippy::indexing_slicing)]

use std::collections::BTreeMap;

/// A value, as far as the tests look at it.
#[derive(Debug, PartialEq)]
pub enum Value {
    Null,
    Truth(bool),
    Number(u64),
    Text(String),
    List(Vec<Value>),
    Object(BTreeMap<String, Value>),
}

/// A strict reader: no blanks outside strings, whole numbers only, no field twice.
struct Reader<'a>(&'a str);

impl Reader<'_> {
    fn take(&mut self, wanted: &str) -> Option<()> {
        self.0 = self.0.strip_prefix(wanted)?;
        Some(())
    }

    fn value(&mut self) -> Option<Value> {
        match self.0.chars().next()? {
            '{' => self.object(),
            '[' => self.list(),
            '"' => self.text().map(Value::Text),
            't' => self.take("true").map(|()| Value::Truth(true)),
            'f' => self.take("false").map(|()| Value::Truth(false)),
            'n' => self.take("null").map(|()| Value::Null),
            _ => self.number(),
        }
    }

    fn number(&mut self) -> Option<Value> {
        let end = self.0.find(|c: char| !c.is_ascii_digit()).unwrap_or(self.0.len());
        let (digits, rest) = self.0.split_at(end);
        self.0 = rest;
        let plain = digits == "0" || !digits.starts_with('0');
        digits.parse().ok().filter(|_| plain).map(Value::Number)
    }

    fn text(&mut self) -> Option<String> {
        self.take("\"")?;
        let mut text = String::new();
        loop {
            let next = self.0.chars().next()?;
            self.0 = &self.0[next.len_utf8()..];
            match next {
                '"' => return Some(text),
                '\\' => text.push(self.escaped()?),
                control if control < ' ' => return None,
                plain => text.push(plain),
            }
        }
    }

    fn escaped(&mut self) -> Option<char> {
        let kind = self.0.chars().next()?;
        self.0 = &self.0[kind.len_utf8()..];
        if kind != 'u' {
            return ['"', '\\'].contains(&kind).then_some(kind);
        }
        let (digits, rest) = self.0.split_at_checked(4)?;
        self.0 = rest;
        char::from_u32(u32::from_str_radix(digits, 16).ok()?)
    }

    fn list(&mut self) -> Option<Value> {
        let mut items = Vec::new();
        self.take("[")?;
        while self.take("]").is_none() {
            if !items.is_empty() {
                self.take(",")?;
            }
            items.push(self.value()?);
        }
        Some(Value::List(items))
    }

    fn object(&mut self) -> Option<Value> {
        let mut fields = BTreeMap::new();
        self.take("{")?;
        while self.take("}").is_none() {
            if !fields.is_empty() {
                self.take(",")?;
            }
            let name = self.text()?;
            self.take(":")?;
            let value = self.value()?;
            if fields.insert(name, value).is_some() {
                return None;
            }
        }
        Some(Value::Object(fields))
    }
}

/// The fields of a line that is one object and nothing more.
pub fn fields(line: &str) -> Option<BTreeMap<String, Value>> {
    let mut reader = Reader(line);
    match reader.value()? {
        Value::Object(fields) if reader.0.is_empty() => Some(fields),
        _ => None,
    }
}

impl Value {
    /// What is at a path of field names and list positions.
    pub fn at(&self, path: &str) -> &Value {
        self.find(path).unwrap_or(&Value::Null)
    }

    pub fn find(&self, path: &str) -> Option<&Value> {
        path.split('/').try_fold(self, |value, step| match value {
            Value::Object(fields) => fields.get(step),
            Value::List(items) => items.get(step.parse::<usize>().ok()?),
            _ => None,
        })
    }

    pub fn items(&self) -> &[Value] {
        match self {
            Value::List(items) => items,
            _ => &[],
        }
    }

    pub fn number(&self) -> Option<u64> {
        match self {
            Value::Number(number) => Some(*number),
            _ => None,
        }
    }

    pub fn text(&self) -> &str {
        match self {
            Value::Text(text) => text,
            _ => "",
        }
    }

    /// The names of an object's fields.
    pub fn names(&self) -> Vec<&str> {
        match self {
            Value::Object(fields) => fields.keys().map(String::as_str).collect(),
            _ => Vec::new(),
        }
    }
}
