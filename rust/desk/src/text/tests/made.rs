//! Terms that no line says, lists and axioms: they are the records that they stand for.

use super::{assemble, round_trip, Random};
use judge::Verdict;

/// A text, and the lines of the same with a line for each record.
const SAME: [(&str, &str); 9] = [
    // Inner terms before outer ones, the left before the right, each once.
    (
        "SubClassOf(ObjectIntersectionOf(ObjectUnionOf(c2 c1) ObjectComplementOf(c2)) ObjectSomeValuesFrom(r0 c3))",
        "c2\nc1\nObjectUnionOf(#1 #2)\nObjectComplementOf(#1)\nObjectIntersectionOf(#3 #4)\nc3\n\
         ObjectSomeValuesFrom(r0 #6)\nSubClassOf(#5 #7)",
    ),
    // The first record that says a term is taken, and one of a later line is not.
    (
        "c1\nc2\nObjectUnionOf(c1 c2)\nObjectUnionOf(c1 c2)\nObjectComplementOf(ObjectUnionOf(c1 c3))\nc3",
        "c1\nc2\nObjectUnionOf(#1 #2)\nObjectUnionOf(#1 #2)\nc3\nObjectUnionOf(#1 #5)\nObjectComplementOf(#6)\nc3",
    ),
    // Of a list the first terms make one, at the line's own and within another.
    (
        "ObjectIntersectionOf(c1 c2 c3 c4)\nObjectComplementOf(ObjectUnionOf(c1 c2 ObjectIntersectionOf(c1 c2 c3)))",
        "c1\nc2\nObjectIntersectionOf(#1 #2)\nc3\nObjectIntersectionOf(#3 #4)\nc4\nObjectIntersectionOf(#5 #6)\n\
         ObjectUnionOf(#1 #2)\nObjectUnionOf(#8 #5)\nObjectComplementOf(#9)",
    ),
    (
        "EquivalentClasses(c1 c2)\nEquivalentClasses(c1 c2 c3)",
        "c1\nc2\nSubClassOf(#1 #2)\nSubClassOf(#2 #1)\nc3\nSubClassOf(#1 #2)\nSubClassOf(#2 #5)\nSubClassOf(#5 #1)",
    ),
    (
        "DisjointClasses(c1 c2)\nDisjointClasses(c1 c2 c3)",
        "c1\nc2\nObjectComplementOf(#2)\nSubClassOf(#1 #3)\nc3\nObjectComplementOf(#5)\nSubClassOf(#1 #3)\n\
         SubClassOf(#1 #6)\nSubClassOf(#2 #6)",
    ),
    (
        "ObjectPropertyDomain(r1 c1)",
        "owl:Thing\nObjectSomeValuesFrom(r1 #1)\nc1\nSubClassOf(#2 #3)",
    ),
    (
        "ObjectPropertyRange(r1 c1)",
        "owl:Thing\nc1\nObjectAllValuesFrom(r1 #2)\nSubClassOf(#1 #3)",
    ),
    // Off the chain, and with a link of its own.
    (
        "c1\noff EquivalentClasses(c1 c2)\nSubClassOf(c2 c1)\nDisjointClasses(c1 c2) next 5",
        "c1\nc2\noff SubClassOf(#1 #2)\noff SubClassOf(#2 #1)\nSubClassOf(#2 #1)\nObjectComplementOf(#2)\n\
         SubClassOf(#1 #6) next 5",
    ),
    // The numbers of records and of lines are those that come out.
    (
        "2: ObjectComplementOf(c1)\n4: EquivalentClasses(#2 c2)\n6: SubClassOf(#2 #3)",
        "1: c1\n2: ObjectComplementOf(#1)\n3: c2\n4: SubClassOf(#2 #3)\n5: SubClassOf(#3 #2)\n6: SubClassOf(#2 #3)",
    ),
];

fn bytes(lines: &str) -> Vec<u8> {
    assemble(&format!("vocabulary roles 2\n{lines}")).unwrap().0
}

#[test]
fn terms_that_are_made_lists_and_axioms_are_the_records_that_they_stand_for() {
    for (short, long) in SAME {
        assert_eq!(bytes(short), bytes(long), "{short}");
        round_trip(&bytes(short), false);
    }
}

#[test]
fn a_record_that_is_made_has_the_line_that_needs_it_and_its_comment_is_the_lines_own() {
    let text = "vocabulary roles 1\n\n  DisjointClasses(c1 c2 c3) -- apart\nc4 -- four\n";
    let lines = super::super::assemble(text).unwrap().lines;
    let told: Vec<(usize, usize, bool, &str)> = lines
        .iter()
        .map(|line| (line.number, line.column, line.is_made, line.comment.as_str()))
        .collect();
    let (made, own) = ((3, 3, true, ""), (3, 3, false, "apart"));
    let mut wanted = vec![(1, 1, false, "")];
    wanted.extend([made; 5]);
    wanted.extend([own; 3]);
    wanted.push((4, 1, false, "four"));
    assert_eq!(told, wanted);
}

/// A random term over the names 1 to 3 and role 0, with at most one restriction.
fn term(random: &mut Random, depth: usize) -> String {
    let name = format!("c{}", 1 + random.below(3));
    if depth == 0 {
        return name;
    }
    let (a, b) = (term(random, depth - 1), term(random, depth - 1));
    match random.below(5) {
        0 => format!("ObjectUnionOf({a} {b})"),
        1 => format!("ObjectIntersectionOf({a} {b})"),
        2 => format!("ObjectComplementOf({a})"),
        3 => "ObjectSomeValuesFrom(r0 c1)".to_string(),
        _ => name,
    }
}

/// A random axiom, and what OWL 2 says that it means, by intersections within nothing and by each pair both ways.
fn axiom(random: &mut Random) -> (String, Vec<String>) {
    let count = 2 + random.below(2);
    let terms: Vec<String> = (0..count).map(|_| term(random, 1)).collect();
    let all = terms.join(" ");
    let pairs = (0..count).flat_map(|a| (a + 1..count).map(move |b| (a, b)));
    let within = |a: &str, b: &str| format!("SubClassOf({a} {b})");
    let first = &terms[0];
    match random.below(4) {
        0 => {
            let both = pairs.flat_map(|(a, b)| [within(&terms[a], &terms[b]), within(&terms[b], &terms[a])]);
            (format!("EquivalentClasses({all})"), both.collect())
        }
        1 => {
            let apart = |(a, b): (usize, usize)| {
                let both = format!("ObjectIntersectionOf({} {})", terms[a], terms[b]);
                within(&both, "owl:Nothing")
            };
            (format!("DisjointClasses({all})"), pairs.map(apart).collect())
        }
        2 => (
            format!("ObjectPropertyDomain(r0 {first})"),
            vec![within("ObjectSomeValuesFrom(r0 owl:Thing)", first)],
        ),
        _ => (
            format!("ObjectPropertyRange(r0 {first})"),
            // Nothing has by the role what is outside the term.
            vec![within(
                &format!("ObjectSomeValuesFrom(r0 ObjectComplementOf({first}))"),
                "owl:Nothing",
            )],
        ),
    }
}

/// Of each pair of terms whether they are equal, and whether nothing satisfies the statements. They are asked about by their
/// complements, which can be said twice, as names cannot.
fn answers(lines: &str, terms: &[String]) -> Vec<(bool, bool)> {
    let mut answers = Vec::new();
    for (a, b) in terms.iter().flat_map(|a| terms.iter().map(move |b| (a, b))) {
        let first = format!("c1\nc2\nc3\n{lines}\nObjectComplementOf({a})\n");
        let both = format!("{first}ObjectComplementOf({b})\n");
        let [a, b] = [&first, &both].map(|lines| (bytes(lines).len() / judge::RECORD_BYTES - 1) as u32);
        let answer = judge::compare(&bytes(&both), a, b, &mut [0; judge::SURVIVOR_BYTES]).unwrap();
        answers.push((answer.verdict == Verdict::Equal, answer.survivors == 0));
    }
    answers
}

#[test]
fn axioms_mean_what_owl_says() {
    let mut random = Random(0xa1c);
    let (mut equal, mut different, mut contradictory) = (0, 0, 0);
    for _ in 0..300 {
        let (mut short, mut long) = (String::new(), String::new());
        for _ in 0..1 + random.below(2) {
            let (axiom, statements) = axiom(&mut random);
            short.push_str(&format!("{axiom}\n"));
            long.push_str(&format!("{}\n", statements.join("\n")));
        }
        let terms: Vec<String> = (0..3).map(|_| term(&mut random, 2)).collect();
        let (found, wanted) = (answers(&short, &terms), answers(&long, &terms));
        assert_eq!(found, wanted, "{short}\nagainst\n{long}\nof {terms:?}");
        equal += found.iter().filter(|(equal, _)| *equal).count();
        different += found.iter().filter(|(equal, _)| !*equal).count();
        contradictory += found.iter().filter(|(_, none)| *none).count();
    }
    assert!(
        equal > 500 && different > 500 && contradictory > 20,
        "{equal} {different} {contradictory}"
    );
}
