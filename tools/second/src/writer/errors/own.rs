//! Writers that are wrong in the new record's own rows.

use crate::vocabulary::records::{at, uses, Record, Use};
use crate::vocabulary::Refusal;
use crate::writer::rules::{Adding, Paper, Rules, STATEMENT};

/// Row 5 by another test of an operand.
fn wrong_operand(adding: &Adding, is_right: impl Fn(usize) -> bool) -> bool {
    let operands = adding.new.used_for(Use::Term);
    operands.into_iter().any(|number| !is_right(usize::from(number)))
}

/// Whether an operand is a term in use.
fn is_term(adding: &Adding, number: usize) -> bool {
    number > 0 && at(&adding.records, number).is_term()
}

/// Row 5 of one of A and B alone.
fn of_one(adding: &Adding, field: usize) -> bool {
    let purposes = uses(adding.new.kind).into_iter().flatten();
    let mut used = purposes.zip(adding.new.fields).enumerate();
    used.any(|(at, (purpose, number))| at == field && purpose == Use::Term && !is_term(adding, usize::from(number)))
}

/// Row 7 by another test of a record in use.
fn repeats(adding: &Adding, is_same: impl Fn(&Record, u16) -> bool) -> bool {
    let labels = adding.new.used_for(Use::Label);
    let mut used = adding.records.iter().skip(1);
    labels
        .first()
        .is_some_and(|label| used.any(|record| is_same(record, *label)))
}

/// A row by a test of its own, the others as the paper has them.
fn instead(row: u8, is_row: u8, adding: &Adding, test: impl Fn() -> bool) -> bool {
    if row == is_row {
        test()
    } else {
        Paper.applies(row, adding)
    }
}

/// The paper's own rows, with another number for a row.
fn numbered(adding: &Adding, row: u8, number: u8) -> Result<(), Refusal> {
    let own = Paper.own(adding);
    own.map_err(|refusal| {
        if refusal.number == row {
            Refusal { number, ..refusal }
        } else {
            refusal
        }
    })
}

wrong! {
    "kind 0 let in" KindZero {
        fn is_term_kind(&self, kind: u8) -> bool {
            kind <= 8
        }
    }
    "kind 9 let in as a term, not linked" KindNine {
        fn is_term_kind(&self, kind: u8) -> bool {
            (1..=9).contains(&kind)
        }
    }
    "kind 9 let in as a term, and linked" KindNineLinked {
        fn is_term_kind(&self, kind: u8) -> bool {
            (1..=9).contains(&kind)
        }
        fn is_linked(&self, adding: &Adding) -> bool {
            adding.new.kind == STATEMENT
        }
    }
    "kind 9 as a term is 4" KindNineFour {
        fn own(&self, adding: &Adding) -> Result<(), Refusal> {
            if adding.as_term && adding.new.kind == STATEMENT { numbered(adding, 3, 4) } else { Paper.own(adding) }
        }
    }
    "kind 9 as a term is 5 where its operands are wrong" KindNineFive {
        fn own(&self, adding: &Adding) -> Result<(), Refusal> {
            let wrong = adding.new.kind == STATEMENT && Paper.applies(5, adding);
            if adding.as_term && wrong { numbered(adding, 3, 5) } else { Paper.own(adding) }
        }
    }
    "kind 10 let in" KindTen {
        fn is_term_kind(&self, kind: u8) -> bool {
            (1..=8).contains(&kind) || kind == 10
        }
    }
    "kind 8 refused" KindEight {
        fn is_term_kind(&self, kind: u8) -> bool {
            (1..=7).contains(&kind)
        }
    }
    "kind read in four bits" KindFourBits {
        fn is_term_kind(&self, kind: u8) -> bool {
            (1..=8).contains(&(kind & 15))
        }
    }
    "kind read in seven bits" KindSevenBits {
        fn is_term_kind(&self, kind: u8) -> bool {
            (1..=8).contains(&(kind & 127))
        }
    }
    "any kind let in" AnyKind {
        fn is_term_kind(&self, _: u8) -> bool {
            true
        }
    }
    "15 in place of 3" FifteenForThree {
        fn own(&self, adding: &Adding) -> Result<(), Refusal> {
            numbered(adding, 3, 15)
        }
    }
    "10 in place of 5" TenForFive {
        fn own(&self, adding: &Adding) -> Result<(), Refusal> {
            numbered(adding, 5, 10)
        }
    }
    "5 before 4" FiveFour {
        fn rows(&self) -> [u8; 5] {
            [3, 5, 4, 6, 7]
        }
    }
    "6 before 5" SixFive {
        fn rows(&self) -> [u8; 5] {
            [3, 4, 6, 5, 7]
        }
    }
    "7 before 4" SevenFour {
        fn rows(&self) -> [u8; 5] {
            [3, 7, 4, 5, 6]
        }
    }
    "own rows with the length as their place" OwnAtLength {
        fn place(&self, adding: &Adding) -> usize {
            adding.used
        }
    }
    "own rows with the last record as their place" OwnAtLast {
        fn place(&self, adding: &Adding) -> usize {
            adding.count() - 1
        }
    }
    "own rows with the new count as their place" OwnAtNext {
        fn place(&self, adding: &Adding) -> usize {
            adding.count() + 1
        }
    }
    "own rows with place 0" OwnAtZero {
        fn place(&self, _: &Adding) -> usize {
            0
        }
    }
    "own rows not asked" NoOwn {
        fn own(&self, adding: &Adding) -> Result<(), Refusal> {
            if self.applies(3, adding) { Paper.own(adding) } else { Ok(()) }
        }
    }
    "row 4 not asked" NoFour {
        fn applies(&self, row: u8, adding: &Adding) -> bool {
            instead(row, 4, adding, || false)
        }
    }
    "row 4 asked of B alone" FourB {
        fn applies(&self, row: u8, adding: &Adding) -> bool {
            let unused = uses(adding.new.kind).is_some_and(|uses| uses[1] == Use::Unused);
            instead(row, 4, adding, || unused && adding.new.fields[1] != 0)
        }
    }
    "row 4 asked of A alone" FourA {
        fn applies(&self, row: u8, adding: &Adding) -> bool {
            let unused = uses(adding.new.kind).is_some_and(|uses| uses[0] == Use::Unused);
            instead(row, 4, adding, || unused && adding.new.fields[0] != 0)
        }
    }
    "row 4 looks at low bytes" FourLow {
        fn applies(&self, row: u8, adding: &Adding) -> bool {
            instead(row, 4, adding, || adding.new.used_for(Use::Unused).iter().any(|field| field & 255 != 0))
        }
    }
    "row 5 not asked" NoFive {
        fn applies(&self, row: u8, adding: &Adding) -> bool {
            instead(row, 5, adding, || false)
        }
    }
    "own number allowed as operand" OwnNumber {
        fn applies(&self, row: u8, adding: &Adding) -> bool {
            instead(row, 5, adding, || wrong_operand(adding, |n| is_term(adding, n) || n == adding.count()))
        }
    }
    "a statement allowed as operand" StatementOperand {
        fn applies(&self, row: u8, adding: &Adding) -> bool {
            instead(row, 5, adding, || wrong_operand(adding, |n| (1..adding.count()).contains(&n)))
        }
    }
    "the header allowed as operand" HeaderOperand {
        fn applies(&self, row: u8, adding: &Adding) -> bool {
            instead(row, 5, adding, || wrong_operand(adding, |n| is_term(adding, n) || n == 0))
        }
    }
    "operands past the end allowed" LaterOperand {
        fn applies(&self, row: u8, adding: &Adding) -> bool {
            instead(row, 5, adding, || wrong_operand(adding, |n| is_term(adding, n) || n > adding.count()))
        }
    }
    "operands read in eight bits" OperandEight {
        fn applies(&self, row: u8, adding: &Adding) -> bool {
            instead(row, 5, adding, || wrong_operand(adding, |n| is_term(adding, n) || is_term(adding, n & 255)))
        }
    }
    "the last record refused as operand" LastOperand {
        fn applies(&self, row: u8, adding: &Adding) -> bool {
            instead(row, 5, adding, || wrong_operand(adding, |n| is_term(adding, n) && n + 1 < adding.count()))
        }
    }
    "row 5 asked of A alone" FiveA {
        fn applies(&self, row: u8, adding: &Adding) -> bool {
            instead(row, 5, adding, || of_one(adding, 0))
        }
    }
    "row 5 asked of B alone" FiveB {
        fn applies(&self, row: u8, adding: &Adding) -> bool {
            instead(row, 5, adding, || of_one(adding, 1))
        }
    }
    "row 5 not asked of statements" FiveTerms {
        fn applies(&self, row: u8, adding: &Adding) -> bool {
            instead(row, 5, adding, || adding.as_term && Paper.applies(5, adding))
        }
    }
    "row 5 not asked of restrictions" FivePlain {
        fn applies(&self, row: u8, adding: &Adding) -> bool {
            instead(row, 5, adding, || !matches!(adding.new.kind, 7 | 8) && Paper.applies(5, adding))
        }
    }
    "row 6 not asked" NoSix {
        fn applies(&self, row: u8, adding: &Adding) -> bool {
            instead(row, 6, adding, || false)
        }
    }
    "a role that is the count let in" RoleIsCount {
        fn applies(&self, row: u8, adding: &Adding) -> bool {
            let count = at(&adding.records, 0).fields[1];
            instead(row, 6, adding, || adding.new.used_for(Use::Role).iter().any(|role| *role > count))
        }
    }
    "the last role refused" LastRole {
        fn applies(&self, row: u8, adding: &Adding) -> bool {
            let count = at(&adding.records, 0).fields[1];
            instead(row, 6, adding, || adding.new.used_for(Use::Role).iter().any(|role| role + 1 >= count.max(1)))
        }
    }
    "roles below 64 let in" RoleBelow64 {
        fn applies(&self, row: u8, adding: &Adding) -> bool {
            instead(row, 6, adding, || adding.new.used_for(Use::Role).iter().any(|role| *role >= 64))
        }
    }
    "roles read in eight bits" RoleEight {
        fn applies(&self, row: u8, adding: &Adding) -> bool {
            let count = at(&adding.records, 0).fields[1];
            instead(row, 6, adding, || adding.new.used_for(Use::Role).iter().any(|role| role & 255 >= count))
        }
    }
    "row 6 not asked of kind 8" SixSome {
        fn applies(&self, row: u8, adding: &Adding) -> bool {
            instead(row, 6, adding, || adding.new.kind == 7 && Paper.applies(6, adding))
        }
    }
    "row 7 not asked" NoSeven {
        fn applies(&self, row: u8, adding: &Adding) -> bool {
            instead(row, 7, adding, || false)
        }
    }
    "a label compared with A of any kind" LabelOfAny {
        fn applies(&self, row: u8, adding: &Adding) -> bool {
            instead(row, 7, adding, || repeats(adding, |record, label| record.fields[0] == label))
        }
    }
    "a label compared with the last name alone" LabelOfLast {
        fn applies(&self, row: u8, adding: &Adding) -> bool {
            let last = adding.records.iter().rfind(|record| record.is_name()).copied();
            instead(row, 7, adding, || repeats(adding, |record, label| Some(*record) == last && record.fields[0] == label))
        }
    }
    "a label compared with the first name alone" LabelOfFirst {
        fn applies(&self, row: u8, adding: &Adding) -> bool {
            let first = adding.records.iter().find(|record| record.is_name()).copied();
            instead(row, 7, adding, || repeats(adding, |record, label| Some(*record) == first && record.fields[0] == label))
        }
    }
    "labels compared in their low bytes" LabelLow {
        fn applies(&self, row: u8, adding: &Adding) -> bool {
            instead(row, 7, adding, || repeats(adding, |r, label| r.is_name() && (r.fields[0] ^ label) & 255 == 0))
        }
    }
    "labels compared in their high bytes" LabelHigh {
        fn applies(&self, row: u8, adding: &Adding) -> bool {
            instead(row, 7, adding, || repeats(adding, |r, label| r.is_name() && (r.fields[0] ^ label) >> 8 == 0))
        }
    }
    "label 0 refused" LabelZero {
        fn applies(&self, row: u8, adding: &Adding) -> bool {
            instead(row, 7, adding, || adding.new.used_for(Use::Label) == [0] || Paper.applies(7, adding))
        }
    }
    "A of any term taken for a label" AnyLabel {
        fn applies(&self, row: u8, adding: &Adding) -> bool {
            let taken = |record: &Record| record.is_name() && record.fields[0] == adding.new.fields[0];
            instead(row, 7, adding, || adding.new.kind <= 8 && adding.records.iter().any(taken))
        }
    }
}
