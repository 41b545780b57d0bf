//! Drawings, read back: a strict reader of the statements that they are made of, by the grammar of Graphviz's DOT language.

#![allow(clippy::unwrap_used, clippy::indexing_slicing, clippy::panic)]

use super::{Drawing, BEGINNING};
use crate::files::Name;
use crate::stored::compared;
use crate::taxonomy::Taxonomy;
use crate::text::vocabulary::Written;
use base::vocabulary::Vocabulary;
use std::collections::{BTreeMap, BTreeSet};
use std::ffi::OsStr;

/// A frame, or a drawing without frames: the label of each node, line by line, those that are marked, and the arrows.
#[derive(Debug, Default)]
struct Frame {
    label: Option<String>,
    nodes: BTreeMap<String, Vec<String>>,
    marked: BTreeSet<String>,
    arrows: BTreeSet<(String, String)>,
}

/// Whether a text may name a node without quotes.
fn is_plain(name: &str) -> bool {
    let mut letters = name.chars();
    letters.next().is_some_and(|letter| letter.is_ascii_alphabetic())
        && letters.all(|letter| letter.is_ascii_alphanumeric() || letter == '_')
        && !["node", "edge", "graph", "digraph", "subgraph", "strict"].contains(&name)
}

/// The most bytes between the quotes of a label, beyond which Graphviz takes the end of it for missing.
const LABEL_BYTES: usize = 16_384;

/// Takes a label in quotes, and answers it as Graphviz shows it, with what comes after.
fn label(text: &str) -> (String, &str) {
    let (mut shown, mut rest) = (String::new(), text.strip_prefix('"').unwrap());
    loop {
        let (front, after) = [("\\\\", "\\"), ("\\\"", "\""), ("\\n", "\n"), ("&amp;", "&")]
            .into_iter()
            .find_map(|(written, meant)| Some((meant, rest.strip_prefix(written)?)))
            .unwrap_or_else(|| rest.split_at(rest.chars().next().unwrap().len_utf8()));
        match front {
            "\"" if rest.starts_with('"') => {
                assert!(text.len() - after.len() <= LABEL_BYTES + 2);
                return (shown, after);
            }
            // An escape or a reference that is not known.
            "\\" if !rest.starts_with("\\\\") => panic!("{rest}"),
            "&" if !rest.starts_with("&amp;") => panic!("{rest}"),
            _ => shown.push_str(front),
        }
        rest = after;
    }
}

/// Reads a drawing: its frames, or all of it as one.
fn read(drawing: &str) -> Vec<Frame> {
    let body = drawing.strip_prefix(BEGINNING).unwrap().strip_suffix("}\n").unwrap();
    let (mut frames, mut inside) = (vec![Frame::default()], false);
    for line in body.lines().map(str::trim_start) {
        if let Some(rest) = line.strip_prefix("subgraph ") {
            let number = rest.strip_prefix("cluster_").unwrap().strip_suffix(" {").unwrap();
            assert!(!inside && is_plain(&format!("x{number}")));
            inside = true;
            frames.push(Frame::default());
            continue;
        }
        if line == "}" {
            assert!(std::mem::take(&mut inside));
            continue;
        }
        let frame = frames.last_mut().unwrap();
        if let Some(quoted) = line.strip_prefix("label=") {
            let (text, rest) = label(quoted);
            assert_eq!(rest, ";");
            assert!(inside && frame.label.replace(text).is_none());
        } else if let Some((name, quoted)) = line.split_once(" [label=") {
            let (text, rest) = label(quoted);
            assert!(is_plain(name), "{name}");
            match rest {
                "];" => {}
                ", color=red, fontcolor=red];" => assert!(frame.marked.insert(name.to_string())),
                _ => panic!("{rest}"),
            }
            let lines = text.split("\n= ").map(str::to_string).collect();
            assert!(frame.nodes.insert(name.to_string(), lines).is_none(), "{name}");
        } else {
            let (from, to) = line.strip_suffix(';').unwrap().split_once(" -> ").unwrap();
            assert!([from, to].iter().all(|name| frame.nodes.contains_key(*name)), "{line}");
            assert!(frame.arrows.insert((from.to_string(), to.to_string())), "{line}");
        }
    }
    assert!(!inside);
    frames
}

/// A vocabulary written out, with these words at each record.
fn written(bytes: &[u8], words: &str) -> Written {
    let vocabulary = Vocabulary::read(bytes);
    let words = vec![words.to_string(); vocabulary.records.len()];
    Written::new(vocabulary).with_words(words)
}

/// That a frame has the classes of a taxonomy, an arrow to each nearest broader one, or to owl:Thing, and a mark where
/// nothing can belong.
fn assert_drawn(frame: &Frame, written: &Written, taxonomy: &Taxonomy) {
    let called = |names: &[u16]| names.iter().map(|name| written.called(*name)).collect::<Vec<String>>();
    let thing = "owl:Thing".to_string();
    let mut wanted: BTreeSet<(Vec<String>, Vec<String>)> = BTreeSet::new();
    let full: Vec<u16> = (taxonomy.classes.iter().filter(|class| class.full))
        .flat_map(|class| class.names.clone())
        .collect();
    let nothing = taxonomy.is_contradictory().then(|| "owl:Nothing".to_string());
    let top: Vec<String> = [thing].into_iter().chain(nothing).chain(called(&full)).collect();
    let shown = |number: usize| {
        let class = &taxonomy.classes[number];
        match (class.full, class.empty) {
            (true, _) => top.clone(),
            (_, true) => [vec!["owl:Nothing".to_string()], called(&class.names)].concat(),
            _ => called(&class.names),
        }
    };
    let mut nodes = BTreeSet::from([top.clone()]);
    for (number, class) in taxonomy.classes.iter().enumerate().filter(|(_, class)| !class.full) {
        nodes.insert(shown(number));
        wanted.extend(class.broader.iter().map(|broader| (shown(number), shown(*broader))));
        if class.broader.is_empty() {
            wanted.insert((shown(number), top.clone()));
        }
    }
    let label = |name: &String| frame.nodes[name].clone();
    assert_eq!(frame.nodes.values().cloned().collect::<BTreeSet<_>>(), nodes);
    assert_eq!(frame.nodes.len(), nodes.len());
    let arrows: BTreeSet<_> = (frame.arrows.iter())
        .map(|(from, to)| (label(from), label(to)))
        .collect();
    assert_eq!((arrows.len(), arrows), (frame.arrows.len(), wanted));
    let is_empty = |name: &&String| frame.nodes[*name].contains(&"owl:Nothing".to_string());
    assert_eq!(
        frame.nodes.keys().filter(is_empty).collect::<Vec<_>>(),
        frame.marked.iter().collect::<Vec<_>>()
    );
}

#[test]
fn a_drawing_read_back_is_the_taxonomy_whatever_the_names_are_called() {
    let words = [
        "",
        "plain",
        "\"quoted\" \\n \\N \\\\",
        "a & b &amp; &lt;",
        "<b>] ; } -> {",
        "é\t\u{202e}",
    ];
    let vocabularies = compared();
    let (mut drawn, mut arrows) = (0, 0);
    for (bytes, words) in vocabularies.iter().zip(words.iter().cycle()) {
        let Ok(taxonomy) = Taxonomy::ask(bytes) else { continue };
        let written = written(bytes, words);
        let mut drawing = Drawing::new(false);
        drawing.add(&Name::new(OsStr::new("x")), &written, &taxonomy);
        let frames = read(&drawing.text());
        assert_eq!(frames.len(), 1);
        assert_drawn(&frames[0], &written, &taxonomy);
        drawn += 1;
        arrows += frames[0].arrows.len();
    }
    assert!(drawn > 1000 && arrows > 3000, "{drawn}, {arrows}");
}

#[test]
fn each_of_several_has_a_frame_with_its_name() {
    let vocabularies = compared();
    let mut drawing = Drawing::new(true);
    let mut all = Vec::new();
    for (number, bytes) in vocabularies.iter().enumerate().take(300) {
        let Ok(taxonomy) = Taxonomy::ask(bytes) else { continue };
        let written = written(bytes, "a \"name\"");
        let name = Name::new(OsStr::new(&format!("\\{number} & \"it\".text")));
        drawing.add(&name, &written, &taxonomy);
        all.push((name, written, taxonomy));
    }
    let frames = read(&drawing.text());
    assert!(frames[0].nodes.is_empty() && frames.len() == all.len() + 1 && all.len() > 100);
    let mut names: BTreeSet<&String> = BTreeSet::new();
    for (frame, (name, written, taxonomy)) in frames.iter().skip(1).zip(&all) {
        assert_eq!(frame.label.as_deref(), Some(name.as_str()));
        assert_drawn(frame, written, taxonomy);
        // No two share a node.
        assert!(frame.nodes.keys().all(|node| names.insert(node)));
    }
}

/// The header, 12 names, top and bottom, and these statements, each with the next.
fn twelve(statements: &[[u16; 2]]) -> Vec<u8> {
    let mut records = vec![[16, 15, 0, 0]];
    records.extend((1..=12).map(|label| [3, label, 0, 0]));
    records.extend([[1, 0, 0, 0], [2, 0, 0, 0]]);
    records.extend((16..).zip(statements).map(|(next, [a, b])| [9, *a, *b, next]));
    records.last_mut().unwrap()[3] = 0;
    let bytes = |[kind, a, b, next]: &[u16; 4]| [*kind, *a, *b, *next].map(u16::to_le_bytes).concat();
    let mut bytes: Vec<u8> = records.iter().flat_map(bytes).collect();
    bytes[1] = 1;
    bytes
}

#[test]
fn no_label_is_too_long_for_graphviz() {
    // Top within bottom; the names one after the other within the next, and the last within the first.
    let circle: Vec<[u16; 2]> = (1..=12).map(|name| [name, name % 12 + 1]).collect();
    for statements in [&[[13, 14]][..], &circle] {
        let bytes = twelve(statements);
        let taxonomy = Taxonomy::ask(&bytes).unwrap();
        assert_eq!(taxonomy.classes.len(), 1);
        for character in ["&", "\\", "x", "漢", "\u{1b}"] {
            let written = written(&bytes, &character.repeat(5000));
            let path = format!("{}/v.text", character.repeat(5000));
            let mut drawing = Drawing::new(true);
            drawing.add(&Name::new(OsStr::new(&path)), &written, &taxonomy);
            let frames = read(&drawing.text());
            let label = frames[1].label.as_deref().unwrap();
            assert!(label.starts_with(".. ") && label.ends_with("/v.text"), "{label}");
            assert_eq!(label.chars().count(), 203);
            let names: Vec<&String> = frames[1].nodes.values().flatten().collect();
            let names = names.iter().filter(|name| name.starts_with('c'));
            let shown = names.filter(|name| name.chars().count() == 203 && name.ends_with(" .."));
            assert_eq!(shown.count(), 12);
        }
    }
}
