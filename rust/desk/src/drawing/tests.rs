//! Drawings, read back: the elements of the SVG, and whether anything lies over anything else.

#![allow(clippy::unwrap_used, clippy::indexing_slicing, clippy::panic)]

use super::width::{bold, width};
use super::{dot, svg, Arrow, Graph, Node};
use std::collections::BTreeMap;

/// An element of the drawing: its attributes, and the text in it.
#[derive(Clone, Debug, Default)]
struct Element {
    name: String,
    attributes: BTreeMap<String, String>,
    text: String,
}

impl Element {
    fn number(&self, name: &str) -> f64 {
        self.attributes[name].parse().unwrap()
    }

    fn has(&self, name: &str) -> bool {
        self.attributes.contains_key(name)
    }
}

/// A text without its references; any other character that XML takes for more than it is fails.
fn unescaped(text: &str) -> String {
    let allowed =
        |c: char| c == '\n' || (c >= ' ' && !('\u{7f}'..='\u{9f}').contains(&c) && c < '\u{fffe}' || c > '\u{ffff}');
    assert!(text.chars().all(allowed), "{text:?}");
    assert!(!text.contains(['<', '"']), "{text:?}");
    let mut parts = text.split('&');
    let mut plain = parts.next().unwrap().to_string();
    for part in parts {
        let (name, rest) = part.split_once(';').unwrap();
        plain.push_str(match name {
            "amp" => "&",
            "lt" => "<",
            "gt" => ">",
            "quot" => "\"",
            other => panic!("{other}"),
        });
        plain.push_str(rest);
    }
    plain
}

/// Reads XML whose elements have no others in them but for the outermost, which comes first.
fn read(svg: &str) -> Vec<Element> {
    let mut rest = svg
        .strip_prefix("<?xml version=\"1.0\" encoding=\"UTF-8\"?>\n")
        .unwrap();
    let (mut elements, mut open) = (Vec::new(), Vec::new());
    while !rest.is_empty() {
        let (before, tag) = rest.split_once('<').unwrap();
        let (tag, after) = tag.split_once('>').unwrap();
        rest = after.strip_prefix('\n').unwrap_or(after);
        if let Some(name) = tag.strip_prefix('/') {
            let mut element: Element = open.pop().unwrap();
            assert_eq!(element.name, name);
            if open.is_empty() {
                assert!(before.is_empty() && rest.is_empty());
                elements.insert(0, element);
            } else {
                element.text = unescaped(before);
                elements.push(element);
            }
            continue;
        }
        assert!(before.is_empty() && open.len() < 2, "{before}");
        let (tag, is_empty) = match tag.strip_suffix('/') {
            Some(tag) => (tag, true),
            None => (tag, false),
        };
        let element = read_tag(tag);
        match is_empty {
            true => elements.push(element),
            false => open.push(element),
        }
    }
    assert!(open.is_empty());
    elements
}

fn read_tag(tag: &str) -> Element {
    let (name, mut rest) = tag.split_once(' ').unwrap_or((tag, ""));
    let mut attributes = BTreeMap::new();
    while !rest.is_empty() {
        let (name, value) = rest.split_once("=\"").unwrap();
        let (value, after) = value.split_once('"').unwrap();
        assert!(
            name.bytes().all(|byte| byte.is_ascii_alphabetic() || byte == b'-'),
            "{name}"
        );
        assert!(attributes.insert(name.to_string(), unescaped(value)).is_none());
        rest = after.strip_prefix(' ').unwrap_or(after);
    }
    Element {
        name: name.to_string(),
        attributes,
        text: String::new(),
    }
}

/// Left, upper, right and lower side.
type Sides = [f64; 4];

fn overlap(a: Sides, b: Sides) -> bool {
    a[0] < b[2] && b[0] < a[2] && a[1] < b[3] && b[1] < a[3]
}

fn within(a: Sides, b: Sides) -> bool {
    a[0] >= b[0] && a[1] >= b[1] && a[2] <= b[2] && a[3] <= b[3]
}

fn box_sides(element: &Element) -> Sides {
    let [x, y, width, height] = ["x", "y", "width", "height"].map(|name| element.number(name));
    [x, y, x + width, y + height]
}

/// The sides of a line of text, as wide as it may come out.
fn text_sides(element: &Element) -> Sides {
    let (x, y) = (element.number("x"), element.number("y"));
    let width = match element.has("font-weight") {
        true => bold(&element.text),
        false => width(&element.text),
    };
    [x, y - 15.0, x + f64::from(width), y + 5.0]
}

/// Points along a path, near to each other.
fn points(path: &str) -> Vec<[f64; 2]> {
    let mut words = path.split(' ').peekable();
    let (mut all, mut last) = (Vec::new(), [0.0, 0.0]);
    while let Some(command) = words.next() {
        let count = match command {
            "M" | "L" => 1,
            "Q" => 2,
            "C" => 3,
            "Z" => continue,
            other => panic!("{other}"),
        };
        let mut next = || words.next().unwrap().parse::<f64>().unwrap();
        let mut control = vec![if command == "M" { [f64::NAN; 2] } else { last }];
        control.extend((0..count).map(|_| [next(), next()]));
        last = control[count];
        if command == "M" {
            control[0] = last;
        }
        for step in 0..=100 {
            all.push(along(&control, f64::from(step) / 100.0));
        }
    }
    all
}

/// The point of a curve of these control points.
fn along(control: &[[f64; 2]], at: f64) -> [f64; 2] {
    if let [only] = control {
        return *only;
    }
    let between = |pair: &[[f64; 2]]| [0, 1].map(|i| pair[0][i] * (1.0 - at) + pair[1][i] * at);
    let nearer: Vec<[f64; 2]> = control.windows(2).map(between).collect();
    along(&nearer, at)
}

fn is_inside([x, y]: [f64; 2], [left, top, right, bottom]: Sides) -> bool {
    let least = 0.001;
    x > left + least && x < right - least && y > top + least && y < bottom - least
}

/// That a drawing has all of a graph, and that nothing lies over anything else but arrows over arrows.
pub fn assert_drawn(graph: &Graph, svg: &str) {
    let elements = read(svg);
    let whole = &elements[0];
    let (across, height) = (whole.number("width"), whole.number("height"));
    assert_eq!(whole.attributes["viewBox"], format!("0 0 {across} {height}"));
    let page = [0.0, 0.0, across, height];
    let of = |name: &str| {
        elements
            .iter()
            .skip(1)
            .filter(move |element| element.name == name)
            .collect::<Vec<_>>()
    };
    assert_eq!([of("title").len(), of("desc").len()], [1, 1]);
    let boxes: Vec<Sides> = (of("rect").into_iter().filter(|rect| rect.has("rx")))
        .map(box_sides)
        .collect();
    let (labels, texts): (Vec<&Element>, Vec<&Element>) =
        of("text").into_iter().partition(|text| text.has("font-style"));
    let labels: Vec<Sides> = labels.into_iter().map(text_sides).collect();
    assert_eq!((boxes.len(), labels.len()), (graph.nodes.len(), graph.arrows.len()));
    assert!(elements
        .iter()
        .all(|element| !element.has("id") && !element.has("style")));
    for (at, area) in boxes.iter().chain(&labels).enumerate() {
        assert!(within(*area, page), "{area:?} in {page:?}\n{svg}");
        let others = boxes.iter().chain(&labels).skip(at + 1);
        others.for_each(|other| assert!(!overlap(*area, *other), "{area:?}, {other:?}\n{svg}"));
    }
    assert_texts(graph, &texts, &boxes, page, svg);
    let paths = of("path");
    assert_eq!(paths.len(), 2 * graph.arrows.len());
    for point in paths.iter().flat_map(|path| points(&path.attributes["d"])) {
        assert!(is_inside(point, page), "{point:?}\n{svg}");
        let mut areas = boxes.iter().chain(&labels);
        assert!(!areas.any(|area| is_inside(point, *area)), "{point:?}\n{svg}");
    }
}

/// That each text lies in its box or above all of them, and that the first line of each box is its heading.
fn assert_texts(graph: &Graph, texts: &[&Element], boxes: &[Sides], page: Sides, svg: &str) {
    let top = boxes.iter().map(|area| area[1]).fold(f64::INFINITY, f64::min);
    let mut headings = Vec::new();
    for text in texts {
        let area = text_sides(text);
        assert!(within(area, page), "{area:?} in {page:?}\n{svg}");
        let inside = boxes.iter().filter(|around| within(area, **around)).count();
        assert_eq!(inside, usize::from(area[3] > top), "{text:?}\n{svg}");
        if text.has("font-weight") {
            headings.push(text.text.clone());
        }
    }
    let wanted: Vec<String> = graph.nodes.iter().map(|node| node.lines[0].clone()).collect();
    assert_eq!(headings, wanted);
}

/// Numbers that look like chance, and are the same each time.
struct Chance(u32);

impl Chance {
    fn below(&mut self, limit: usize) -> usize {
        self.0 = self.0.wrapping_mul(1_664_525).wrapping_add(1_013_904_223);
        (self.0 >> 16) as usize % limit
    }
}

const WORDS: [&str; 8] = [
    "c1",
    "not c2 (export certificate)",
    "ObjectSomeValuesFrom(r0 ObjectIntersectionOf(c2 c3)) (accompanied by a certified export certificate)",
    "<b>&amp;\"'</b> \\ ]]> --> & ;",
    "\u{5e9}\u{5dc}\u{5d5}\u{5dd} \u{202e}evil \u{7}\t\u{ffff}\u{0}",
    "WWWWWWWWWWWWWWWWWWWWWWWWWWWWWWWWWWWWWWWWWWWWWWWWWWWWWWWWWWWWWWWWWWWWWWWWWWWWWWWWWWWWWWWWWWWWWWWWWWWWWWWWWWWWWWWWWWWWWWWWWWWW",
    "\u{8f38}\u{51fa} \u{1f4dc}\u{fdfd}",
    "",
];

/// A graph of so many boxes, all reached from the first.
fn graph(chance: &mut Chance, nodes: usize, extra: usize) -> Graph {
    let word = |chance: &mut Chance| WORDS[chance.below(WORDS.len())].to_string();
    let mut arrows: Vec<Arrow> = Vec::new();
    for to in 1..nodes {
        let (from, label) = (chance.below(to), word(chance));
        arrows.push(Arrow { from, to, label });
    }
    for _ in 0..extra {
        let (from, to, label) = (chance.below(nodes), chance.below(nodes), word(chance));
        arrows.push(Arrow { from, to, label });
    }
    let node = |place: usize, chance: &mut Chance| Node {
        name: format!("e{place}"),
        lines: std::iter::once(format!("element {place}"))
            .chain((0..chance.below(13)).map(|_| word(chance)))
            .collect(),
    };
    Graph {
        title: word(chance),
        description: word(chance),
        captions: (0..chance.below(3)).map(|_| word(chance)).collect(),
        nodes: (0..nodes).map(|place| node(place, chance)).collect(),
        arrows,
    }
}

#[test]
fn nothing_lies_over_anything_else_whatever_is_drawn() {
    let mut chance = Chance(19);
    for nodes in 1..=12 {
        for extra in (0..=12).chain(0..=12) {
            let graph = graph(&mut chance, nodes, extra);
            let svg = svg::file(&graph);
            assert_drawn(&graph, &svg);
            assert_eq!(svg, svg::file(&graph));
        }
    }
}

#[test]
fn a_drawing_in_a_page_is_that_of_a_file() {
    let graph = graph(&mut Chance(7), 3, 2);
    let file = svg::file(&graph);
    let element = svg::element(&graph);
    assert!(file.ends_with(&element) && element.starts_with("<svg "));
}

#[test]
fn a_long_text_goes_on_in_up_to_three_lines() {
    let wrap = |text: &str| super::wrap::wrap(text, 10);
    assert_eq!(wrap("0123456789"), ["0123456789"]);
    assert_eq!(wrap("012345 789abc"), ["012345", "\u{a0}789abc"]);
    assert_eq!(wrap("0 23456789abc"), ["0 23456789", "\u{a0}abc"]);
    assert_eq!(
        wrap("éééééééééé0123456789abcdefghijk"),
        ["éééééééééé", "\u{a0}0123456789", "\u{a0}abcdefghij .."]
    );
    assert_eq!(wrap(""), [""]);
}

#[test]
fn a_long_label_keeps_its_last_word() {
    let label = |label: &str| {
        let mut drawn = graph(&mut Chance(1), 2, 0);
        drawn.arrows[0].label = label.to_string();
        let svg = svg::file(&drawn);
        let (_, label) = svg.split_once("font-style=\"italic\">").unwrap();
        label.split_once('<').unwrap().0.to_string()
    };
    assert_eq!(
        label("is accompanied by a paper (r0)"),
        "is accompanied by a paper (r0)"
    );
    assert_eq!(
        label("is accompanied by some paper (r0)"),
        "is accompanied by some pa .. (r0)"
    );
    assert_eq!(label(&"W".repeat(31)), format!("{} ..", "W".repeat(30)));
    assert_eq!(
        label(&format!("a {}", "W".repeat(31))),
        format!("a {} ..", "W".repeat(28))
    );
}

#[test]
fn labels_for_graphviz_are_quoted() {
    let mut drawn = graph(&mut Chance(1), 2, 0);
    drawn.title = "a title".to_string();
    drawn.captions = vec!["a \"b\"".to_string(), "c\\d".to_string()];
    drawn.nodes[1].lines = vec!["x & y".to_string(), "é".repeat(201)];
    drawn.nodes[0].lines = vec!["z".to_string()];
    drawn.arrows[0].label = "\\N".to_string();
    let wanted = format!(
        "// a title\ndigraph counter_model {{\n  label=\"a \\\"b\\\"\\nc\\\\d\";\n  labelloc=t;\n  node [shape=box];\n  \
         e0 [label=\"z\", penwidth=2];\n  e1 [label=\"x &amp; y\\n{} ..\"];\n  e0 -> e1 [label=\"\\\\N\"];\n}}\n",
        "é".repeat(200)
    );
    assert_eq!(dot::draw(&drawn), wanted);
}
