//! What records say as people read it: in the Manchester syntax of OWL 2, which ontology editors show.

use base::vocabulary::Saying;

/// What joins the parts of a text.
#[derive(Clone, Copy, Debug, PartialEq, Eq)]
enum Joint {
    /// It has one part alone.
    None,
    /// `and`.
    And,
    /// `or`.
    Or,
    /// Another word.
    Other,
}

/// What a record says, as people read it.
#[derive(Clone, Debug, PartialEq, Eq)]
pub struct Reading {
    /// The text.
    pub text: String,
    /// Whether a name or a role in it is called something.
    pub is_named: bool,
    joint: Joint,
}

impl Reading {
    /// A text of one part.
    pub fn one(text: impl Into<String>, is_named: bool) -> Reading {
        Reading {
            text: text.into(),
            is_named,
            joint: Joint::None,
        }
    }

    /// What a record says, by its role, if it has one, and its operands. A name is read by what it is called.
    pub fn of(saying: Saying, role: Reading, operand: impl Fn(u16) -> Reading) -> Reading {
        let (text, joint) = match saying {
            Saying::Top => ("owl:Thing".to_string(), Joint::None),
            Saying::Bottom => ("owl:Nothing".to_string(), Joint::None),
            Saying::Name(label) => (format!("c{label}"), Joint::None),
            Saying::Not(a) => (format!("not {}", operand(a).closed()), Joint::Other),
            Saying::And(a, b) => (operand(a).joined(Joint::And, "and", &operand(b)), Joint::And),
            Saying::Or(a, b) => (operand(a).joined(Joint::Or, "or", &operand(b)), Joint::Or),
            Saying::Some(_, b) => (format!("{} some {}", role.text, operand(b).closed()), Joint::Other),
            Saying::All(_, b) => (format!("{} only {}", role.text, operand(b).closed()), Joint::Other),
            Saying::Within(a, b) => (
                format!("{} SubClassOf {}", operand(a).text, operand(b).text),
                Joint::Other,
            ),
        };
        let has_role = matches!(saying, Saying::Some(..) | Saying::All(..));
        let is_named = has_role && role.is_named || saying.operands().into_iter().any(|part| operand(part).is_named);
        Reading { text, is_named, joint }
    }

    /// The text as a part of another: in parentheses, unless it has one part.
    fn closed(&self) -> String {
        match self.joint {
            Joint::None => self.text.clone(),
            _ => format!("({})", self.text),
        }
    }

    /// The text of two parts. What is joined by the same word on the left needs no parentheses: so records nest, too.
    fn joined(&self, joint: Joint, word: &str, right: &Reading) -> String {
        let left = match self.joint == joint {
            true => self.text.clone(),
            false => self.closed(),
        };
        format!("{left} {word} {}", right.closed())
    }
}

#[cfg(test)]
mod tests {
    #![allow(clippy::indexing_slicing)]

    use super::Reading;
    use base::vocabulary::Saying::{self, All, And, Name, Not, Or, Some, Top, Within};

    /// The last of some records, of which the first has number 1; c1 is called "goods", and r0 "has".
    fn read(sayings: &[Saying]) -> Reading {
        let mut readings = vec![Reading::one("#0", false)];
        for saying in sayings {
            let role = match saying {
                Some(0, _) | All(0, _) => Reading::one("\"has\"", true),
                _ => Reading::one("r1", false),
            };
            readings.push(match saying {
                Name(1) => Reading::one("\"goods\"", true),
                _ => Reading::of(*saying, role, |number| readings[usize::from(number)].clone()),
            });
        }
        readings[sayings.len()].clone()
    }

    #[test]
    fn parts_stand_in_parentheses_where_they_have_to() {
        let (goods, other) = (Name(1), Name(2));
        for (sayings, text) in [
            (
                vec![goods, other, And(1, 2), And(3, 1)],
                "\"goods\" and c2 and \"goods\"",
            ),
            (
                vec![goods, other, And(1, 2), And(1, 3)],
                "\"goods\" and (\"goods\" and c2)",
            ),
            (vec![goods, other, Or(1, 2), And(3, 2)], "(\"goods\" or c2) and c2"),
            (vec![goods, other, Or(1, 2), Or(3, 2)], "\"goods\" or c2 or c2"),
            (
                vec![goods, other, And(1, 2), Or(3, 3)],
                "(\"goods\" and c2) or (\"goods\" and c2)",
            ),
            (
                vec![goods, Some(0, 1), And(1, 2)],
                "\"goods\" and (\"has\" some \"goods\")",
            ),
            (vec![goods, Not(1), All(1, 2)], "r1 only (not \"goods\")"),
            (vec![goods, Not(1), Not(2)], "not (not \"goods\")"),
            (
                vec![goods, Some(0, 1), Not(1), Within(2, 3)],
                "\"has\" some \"goods\" SubClassOf not \"goods\"",
            ),
        ] {
            assert_eq!(
                read(&sayings),
                Reading {
                    text: text.to_string(),
                    ..read(&sayings)
                }
            );
            assert!(read(&sayings).is_named, "{text}");
        }
    }

    #[test]
    fn what_has_no_named_part_is_not_named() {
        assert!(!read(&[Name(2), Not(1)]).is_named);
        assert!(!read(&[Name(2), Some(1, 1)]).is_named);
        assert!(read(&[Name(2), Some(0, 1)]).is_named);
        assert!(!read(&[Top, Name(2), Within(2, 1)]).is_named);
    }
}
