//! Checks that compare terms wrongly, also where each term has one record.

use crate::script::chain::{complements, Frame, Goal};
use crate::script::columns::Predicate;
use crate::script::records::{Script, Term};
use crate::script::rules::{Paper, Rules};

/// Whether some record of the script has a term.
fn has_record(script: &Script, term: Term) -> bool {
    script.records_of(term).next().is_some()
}

/// How many of two terms have no record.
fn unrecorded(script: &Script, s: Term, t: Term) -> usize {
    [s, t].into_iter().filter(|term| !has_record(script, *term)).count()
}

/// Whether two terms are functions of the same term.
fn same_inner(script: &Script, s: Term, t: Term) -> bool {
    let [s, t] = [s, t].map(|term| script.written_out(term));
    s.get(1..).is_some_and(|inner| t.get(1..) == Some(inner))
}

/// Whether one of two terms is a function of the other.
fn one_inside(script: &Script, s: Term, t: Term) -> bool {
    let [s, t] = [s, t].map(|term| script.written_out(term));
    s.get(1..) == Some(t.as_slice()) || t.get(1..) == Some(s.as_slice())
}

wrong! {
    "terms compared by function alone" FunctionAlone {
        fn same_term(&self, script: &Script, s: Term, t: Term) -> bool {
            script.written_out(s).first() == script.written_out(t).first()
        }
    }
    "terms compared by function alone, in reductions" FunctionAloneReduced {
        fn reduces(&self, script: &Script, frame: &Frame, goal: &Goal) -> bool {
            FunctionAlone.reduces(script, frame, goal)
        }
    }
    "terms compared by their depth" DepthAlone {
        fn same_term(&self, script: &Script, s: Term, t: Term) -> bool {
            script.written_out(s).len() == script.written_out(t).len()
        }
    }
    "terms compared by record" ByRecord {
        fn same_term(&self, _: &Script, s: Term, t: Term) -> bool {
            s == t
        }
    }
    "terms not compared" AnyTerm {
        fn same_term(&self, _: &Script, _: Term, _: Term) -> bool {
            true
        }
    }
    "two terms without a record: function not compared" UnrecordedFunctions {
        fn same_term(&self, script: &Script, s: Term, t: Term) -> bool {
            let wrong = unrecorded(script, s, t) == 2 && same_inner(script, s, t);
            wrong || Paper.same_term(script, s, t)
        }
    }
    "two terms without a record: not compared" UnrecordedTerms {
        fn same_term(&self, script: &Script, s: Term, t: Term) -> bool {
            unrecorded(script, s, t) == 2 || Paper.same_term(script, s, t)
        }
    }
    "a term without a record and one with: function not compared" UnrecordedFunction {
        fn same_term(&self, script: &Script, s: Term, t: Term) -> bool {
            let wrong = unrecorded(script, s, t) == 1 && same_inner(script, s, t);
            wrong || Paper.same_term(script, s, t)
        }
    }
    "a term without a record: inner term not compared" UnrecordedInner {
        fn same_term(&self, script: &Script, s: Term, t: Term) -> bool {
            let wrong = unrecorded(script, s, t) > 0 && FunctionAlone.same_term(script, s, t);
            wrong || Paper.same_term(script, s, t)
        }
    }
    "a term without a record taken as its inner term" UnrecordedAsInner {
        fn same_term(&self, script: &Script, s: Term, t: Term) -> bool {
            let wrong = unrecorded(script, s, t) == 1 && one_inside(script, s, t);
            wrong || Paper.same_term(script, s, t)
        }
    }
    "a term without a record: not compared" AnyUnrecorded {
        fn same_term(&self, script: &Script, s: Term, t: Term) -> bool {
            unrecorded(script, s, t) > 0 || Paper.same_term(script, s, t)
        }
    }
    "a term without a record: not compared in roles" AnyUnrecordedRole {
        fn connection(&self, script: &Script, column: &[Goal], at: usize, goal: &Goal) -> Option<usize> {
            match goal.predicate {
                Predicate::Role(_) => AnyUnrecorded.connection(script, column, at, goal),
                Predicate::Member(_) => Paper.connection(script, column, at, goal),
            }
        }
    }
    "a term without a record: not compared in reductions" AnyUnrecordedReduced {
        fn reduces(&self, script: &Script, frame: &Frame, goal: &Goal) -> bool {
            AnyUnrecorded.reduces(script, frame, goal)
        }
    }
    "a role's second term not compared" FirstTerm {
        fn connection(&self, script: &Script, column: &[Goal], at: usize, goal: &Goal) -> Option<usize> {
            let arguments = |l: &Goal| l.arguments.iter().take(1).copied().collect();
            let first = |l: &Goal| Goal { arguments: arguments(l), ..l.clone() };
            complements(self, script, &first(column.get(at)?), &first(goal)).then_some(at)
        }
    }
}
