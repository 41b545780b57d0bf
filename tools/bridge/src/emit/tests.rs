//! The text of a small vocabulary in both languages and both forms.

#![allow(clippy::unwrap_used)]

use super::{fact_options, names, query, table, Fact, Form, Konclude};
use crate::making::Making;
use base::vocabulary::{Saying, Vocabulary};

/// A vocabulary with a term of each kind and two roles. Term 10 and statement 12 are needed by nothing.
fn vocabulary() -> Vocabulary {
    let mut making = Making::new(2);
    let name = making.put(Saying::Name(7));
    let some = making.put(Saying::Some(1, name));
    let not = making.put(Saying::Not(some));
    let and = making.put(Saying::And(name, not));
    let twice = making.put(Saying::Or(and, and));
    let bottom = making.put(Saying::Bottom);
    making.state(twice, bottom);
    let top = making.put(Saying::Top);
    let all = making.put(Saying::All(0, top));
    making.put(Saying::Not(bottom));
    making.state(top, all);
    making.put(Saying::Within(top, bottom));
    making.vocabulary
}

fn asked(language: super::Language, form: Form) -> String {
    query(language, form, &vocabulary(), 1, 3).unwrap()
}

#[test]
fn functional_syntax_with_the_terms_named() {
    let expected = "\
Prefix(:=<http://vocabulary.example/#>)
Prefix(owl:=<http://www.w3.org/2002/07/owl#>)
Ontology(<http://vocabulary.example/>
Declaration(Class(:T1))
Declaration(Class(:T2))
Declaration(Class(:T3))
Declaration(Class(:T4))
Declaration(Class(:T5))
Declaration(Class(:T6))
Declaration(Class(:T8))
Declaration(Class(:T9))
Declaration(ObjectProperty(:R0))
Declaration(ObjectProperty(:R1))
EquivalentClasses(:T2 ObjectSomeValuesFrom(:R1 :T1))
EquivalentClasses(:T3 ObjectComplementOf(:T2))
EquivalentClasses(:T4 ObjectIntersectionOf(:T1 :T3))
EquivalentClasses(:T5 :T4)
EquivalentClasses(:T6 owl:Nothing)
EquivalentClasses(:T8 owl:Thing)
EquivalentClasses(:T9 ObjectAllValuesFrom(:R0 :T8))
SubClassOf(:T5 :T6)
SubClassOf(:T8 :T9)
Declaration(Class(:Q))
EquivalentClasses(:Q ObjectUnionOf(ObjectIntersectionOf(:T1 ObjectComplementOf(:T3)) \
ObjectIntersectionOf(:T3 ObjectComplementOf(:T1))))
)
";
    assert_eq!(asked(Konclude, Form::Named), expected);
}

#[test]
fn functional_syntax_with_the_terms_written_out() {
    let expected = "\
Prefix(:=<http://vocabulary.example/#>)
Prefix(owl:=<http://www.w3.org/2002/07/owl#>)
Ontology(<http://vocabulary.example/>
Declaration(Class(:T1))
Declaration(ObjectProperty(:R0))
Declaration(ObjectProperty(:R1))
SubClassOf(ObjectIntersectionOf(:T1 ObjectComplementOf(ObjectSomeValuesFrom(:R1 :T1))) owl:Nothing)
SubClassOf(owl:Thing ObjectAllValuesFrom(:R0 owl:Thing))
Declaration(Class(:Q))
EquivalentClasses(:Q ObjectUnionOf(\
ObjectIntersectionOf(:T1 ObjectComplementOf(ObjectComplementOf(ObjectSomeValuesFrom(:R1 :T1)))) \
ObjectIntersectionOf(ObjectComplementOf(ObjectSomeValuesFrom(:R1 :T1)) ObjectComplementOf(:T1))))
)
";
    assert_eq!(asked(Konclude, Form::WrittenOut), expected);
}

#[test]
fn a_tbox_with_the_terms_named() {
    let expected = "\
(defprimconcept T1)
(defprimrole R0)
(defprimrole R1)
(equal_c T2 (some R1 T1))
(equal_c T3 (not T2))
(equal_c T4 (and T1 T3))
(equal_c T5 T4)
(equal_c T6 *BOTTOM*)
(equal_c T8 *TOP*)
(equal_c T9 (all R0 T8))
(implies_c T5 T6)
(implies_c T8 T9)
(equal_c Q (or (and T1 (not T3)) (and T3 (not T1))))
";
    assert_eq!(asked(Fact, Form::Named), expected);
}

#[test]
fn a_tbox_with_the_terms_written_out() {
    let expected = "\
(defprimconcept T1)
(defprimrole R0)
(defprimrole R1)
(implies_c (and T1 (not (some R1 T1))) *BOTTOM*)
(implies_c *TOP* (all R0 *TOP*))
(equal_c Q (or (and T1 (not (not (some R1 T1)))) (and (not (some R1 T1)) (not T1))))
";
    assert_eq!(asked(Fact, Form::WrittenOut), expected);
}

#[test]
fn a_classification_has_all_terms_and_no_question() {
    let text = table(Fact, &vocabulary());
    let named = query(Fact, Form::Named, &vocabulary(), 1, 10).unwrap();
    let (before, question) = named.split_once("(equal_c Q ").unwrap();
    assert_eq!(text, before);
    assert_eq!(question, "(or (and T1 (not T10)) (and T10 (not T1))))\n");
    assert!(text.contains("(equal_c T10 (not T6))\n"));
}

/// Name 13 is in no statement.
#[test]
fn a_classification_of_the_names_has_all_of_them_and_what_the_statements_need() {
    let mut vocabulary = vocabulary();
    vocabulary.records.push(Saying::Name(8).record(0));
    let expected = "\
(defprimconcept T1)
(defprimconcept T13)
(defprimrole R0)
(defprimrole R1)
(implies_c (and T1 (not (some R1 T1))) *BOTTOM*)
(implies_c *TOP* (all R0 *TOP*))
";
    assert_eq!(names(Fact, Form::WrittenOut, &vocabulary).unwrap(), expected);
    let named = names(Fact, Form::Named, &vocabulary).unwrap();
    assert!(
        named.contains("(equal_c T9 (all R0 T8))\n(implies_c T5 T6)\n"),
        "{named}"
    );
    assert!(!named.contains("T10"), "{named}");
}

#[test]
fn the_options_name_the_file_and_the_class() {
    let expected = "[LeveLogger]\nfile = reasoning.log\nallowedLevel = 0\n[Tuning]\n[Query]\nTBox = a.tbox\n";
    assert_eq!(fact_options("a.tbox", None), expected);
    assert_eq!(fact_options("a.tbox", Some("Q")), format!("{expected}Target = Q\n"));
}

#[test]
fn terms_that_double_are_too_long_to_write_out() {
    let mut making = Making::new(0);
    let mut term = making.put(Saying::Name(0));
    let other = making.put(Saying::Name(1));
    for _ in 0..20 {
        let not = making.put(Saying::And(term, other));
        term = making.put(Saying::Or(term, not));
    }
    let made = making.vocabulary;
    assert_eq!(query(Fact, Form::WrittenOut, &made, 1, term), None);
    assert!(query(Fact, Form::Named, &made, 1, term).is_some());
}
