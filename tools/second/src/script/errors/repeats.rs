//! Checks that are wrong where a term has several records: the row that refused them, and terms
//! compared by their records instead of written out.

use crate::script::chain::{Frame, Goal};
use crate::script::columns::Predicate;
use crate::script::form;
use crate::script::records::{Script, Term, CONSTANT, KIND, TERM};
use crate::script::rules::{Paper, Rules};
use crate::script::sorts::{is_equal, is_named, is_repeat};

/// How many functions of a term the check compares that leaves out the inner ones.
const OUTERMOST: usize = 16;

/// Whether row 17 applies, by the paper or to a term record of which a test holds.
fn with_test(row: u8, script: &Script, place: usize, test: fn(&Script, usize) -> bool) -> bool {
    let tested = || row == 17 && script.word(place, KIND) == TERM && test(script, place);
    form::applies(row, script, place) || tested()
}

/// The function of a term, and the function and the record that this is applied to.
fn two_outer(script: &Script, term: Term) -> [u16; 3] {
    let [function, inner] = script.outer(term);
    let [second, third] = script.outer(Term::Record(inner));
    [function, second, third]
}

/// Whether some record has a term, and no more than one.
fn has_one_record(script: &Script, term: Term) -> bool {
    let mut records = script.records_of(term);
    records.next().is_some() && records.next().is_none()
}

wrong! {
    "a term record equal to an earlier one refused" EqualRecord {
        fn applies(&self, row: u8, script: &Script, place: usize) -> bool {
            with_test(row, script, place, is_equal)
        }
    }
    "a repeat over another record of the inner term refused" OtherRecord {
        fn applies(&self, row: u8, script: &Script, place: usize) -> bool {
            with_test(row, script, place, |script, place| is_repeat(script, place) && !is_equal(script, place))
        }
    }
    "a repeat that nothing names refused" UnnamedRepeat {
        fn applies(&self, row: u8, script: &Script, place: usize) -> bool {
            with_test(row, script, place, |script, place| is_repeat(script, place) && !is_named(script, place))
        }
    }
    "a second constant let through" SecondConstant {
        fn applies(&self, row: u8, script: &Script, place: usize) -> bool {
            let constant = place > 1 && script.word(place, KIND) == CONSTANT;
            form::applies(row, script, place) && !(row == 17 && constant)
        }
    }
    "terms compared as if none were repeated" NoRepeats {
        fn same_term(&self, script: &Script, s: Term, t: Term) -> bool {
            match (s, t) {
                (Term::Record(m), Term::Record(n)) => m == n,
                _ => script.same_outer(s, t),
            }
        }
    }
    "terms compared as if none were repeated, in reductions" NoRepeatsReduced {
        fn reduces(&self, script: &Script, frame: &Frame, goal: &Goal) -> bool {
            NoRepeats.reduces(script, frame, goal)
        }
    }
    "terms compared as if none were repeated, in roles" NoRepeatsRole {
        fn connection(&self, script: &Script, column: &[Goal], at: usize, goal: &Goal) -> Option<usize> {
            match goal.predicate {
                Predicate::Role(_) => NoRepeats.connection(script, column, at, goal),
                Predicate::Member(_) => Paper.connection(script, column, at, goal),
            }
        }
    }
    "terms compared by function and inner record" OneFunction {
        fn same_term(&self, script: &Script, s: Term, t: Term) -> bool {
            script.same_outer(s, t)
        }
    }
    "terms compared by function and inner record, in reductions" OneFunctionReduced {
        fn reduces(&self, script: &Script, frame: &Frame, goal: &Goal) -> bool {
            OneFunction.reduces(script, frame, goal)
        }
    }
    "terms compared by two functions and the record inside" TwoFunctions {
        fn same_term(&self, script: &Script, s: Term, t: Term) -> bool {
            two_outer(script, s) == two_outer(script, t)
        }
    }
    "terms compared by their 16 outermost functions" Outermost {
        fn same_term(&self, script: &Script, s: Term, t: Term) -> bool {
            let [s, t] = [s, t].map(|term| script.written_out(term));
            s.iter().take(OUTERMOST).eq(t.iter().take(OUTERMOST))
        }
    }
    "terms compared by their 16 outermost functions, in reductions" OutermostReduced {
        fn reduces(&self, script: &Script, frame: &Frame, goal: &Goal) -> bool {
            Outermost.reduces(script, frame, goal)
        }
    }
    "fi(x) compared by the record of x" FunctionOfRecord {
        fn same_term(&self, script: &Script, s: Term, t: Term) -> bool {
            match (s, t) {
                (Term::Record(_), Term::Record(_)) => Paper.same_term(script, s, t),
                _ => script.same_outer(s, t),
            }
        }
    }
    "fi(x) taken as the first record of its term" FirstRecord {
        fn same_term(&self, script: &Script, s: Term, t: Term) -> bool {
            let first = match (s, t) {
                (Term::Record(n), Term::Applied { .. }) | (Term::Applied { .. }, Term::Record(n)) => {
                    script.records_of(s).next() == Some(n)
                }
                _ => true,
            };
            first && Paper.same_term(script, s, t)
        }
    }
    "fi(x) taken as the first record of its term, in reductions" FirstRecordReduced {
        fn reduces(&self, script: &Script, frame: &Frame, goal: &Goal) -> bool {
            FirstRecord.reduces(script, frame, goal)
        }
    }
    "fi(x) taken as the last record of its term, other terms as the first" FirstAndLast {
        fn same_term(&self, script: &Script, s: Term, t: Term) -> bool {
            let mixed = matches!((s, t), (Term::Record(_), Term::Applied { .. }) | (Term::Applied { .. }, Term::Record(_)));
            Paper.same_term(script, s, t) && (!mixed || has_one_record(script, s))
        }
    }
}
