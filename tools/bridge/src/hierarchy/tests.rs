//! What both reasoners wrote of one vocabulary: 1 and 3 are equal, within 2 and 4; 5 is everything; 6 is nothing.

use super::Hierarchy;
use crate::emit::Language;

const FACT: &str = r#"Taxonomy consists of 8 entries
            of which 0 are completely defined

All entries are in format:
"entry" {n: parent_1 ... parent_n} {m: child_1 child_m}

("TOP"="T5") {0:} {3: "T2" "T4" "T7"}
("T1"="T3") {2: "T2" "T4"} {1: "BOTTOM"}
"T2" {1: "TOP"} {1: "T1"}
"T4" {1: "T7"} {1: "T1"}
"T7" {1: "TOP"} {1: "T4"}
("BOTTOM"="T6") {1: "T1"} {0:}
"#;

const KONCLUDE: &str = r#"<?xml version="1.0" encoding="UTF-8"?>
<Ontology xmlns="http://www.w3.org/2002/07/owl#">
    <Prefix name="owl" IRI="http://www.w3.org/2002/07/owl#"/>
    <Declaration>
        <Class IRI="http://vocabulary.example/#T9"/>
    </Declaration>
    <EquivalentClasses>
        <Class IRI="http://www.w3.org/2002/07/owl#Nothing"/>
        <Class IRI="http://vocabulary.example/#T6"/>
    </EquivalentClasses>
    <EquivalentClasses>
        <Class IRI="http://vocabulary.example/#T5"/>
        <Class IRI="http://www.w3.org/2002/07/owl#Thing"/>
    </EquivalentClasses>
    <SubClassOf>
        <Class IRI="http://vocabulary.example/#T7"/>
        <Class IRI="http://vocabulary.example/#T5"/>
    </SubClassOf>
    <SubClassOf>
        <Class IRI="http://vocabulary.example/#T2"/>
        <Class IRI="http://www.w3.org/2002/07/owl#Thing"/>
    </SubClassOf>
    <EquivalentClasses>
        <Class IRI="http://vocabulary.example/#T3"/>
        <Class IRI="http://vocabulary.example/#T1"/>
    </EquivalentClasses>
    <SubClassOf>
        <Class IRI="http://vocabulary.example/#T3"/>
        <Class IRI="http://vocabulary.example/#T2"/>
    </SubClassOf>
    <SubClassOf>
        <Class IRI="http://vocabulary.example/#T3"/>
        <Class IRI="http://vocabulary.example/#T4"/>
    </SubClassOf>
    <SubClassOf>
        <Class IRI="http://vocabulary.example/#T4"/>
        <Class IRI="http://vocabulary.example/#T7"/>
    </SubClassOf>
</Ontology>
"#;

/// The terms that a term lies within.
fn broader(hierarchy: &Hierarchy, term: u16) -> Vec<u16> {
    (1..=7).filter(|other| hierarchy.is_within(term, *other)).collect()
}

#[test]
fn classes_lie_within_all_that_they_reach() {
    for (language, text) in [(Language::Fact, FACT), (Language::Konclude, KONCLUDE)] {
        let hierarchy = Hierarchy::read(language, text);
        for (term, expected) in [
            (1, vec![1, 2, 3, 4, 5, 7]),
            (2, vec![2, 5]),
            (3, vec![1, 2, 3, 4, 5, 7]),
            (4, vec![4, 5, 7]),
            (5, vec![5]),
            (6, vec![1, 2, 3, 4, 5, 6, 7]),
            (7, vec![5, 7]),
        ] {
            assert_eq!(broader(&hierarchy, term), expected, "{language:?}, {term}");
        }
    }
}

#[test]
fn a_class_that_nothing_is_said_of_is_not_there() {
    for (language, text) in [(Language::Fact, FACT), (Language::Konclude, KONCLUDE)] {
        let hierarchy = Hierarchy::read(language, text);
        assert!((1..=7).all(|term| hierarchy.has(term)), "{language:?}");
        assert!(!hierarchy.has(9), "{language:?}");
        assert!(!Hierarchy::read(language, "").has(1));
    }
}
