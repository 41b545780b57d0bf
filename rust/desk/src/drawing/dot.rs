//! Drawings for Graphviz, in its DOT language.

use super::Graph;
use crate::display::beginning;

/// The most characters of a line of a label. Graphviz refuses a label of over 16,384 bytes; a box has at most 15 lines, and
/// no character takes over 5 bytes.
pub const LINE: usize = 200;

/// A line of a label, of which the beginning is shown where it is too long.
pub fn line(text: &str) -> String {
    beginning(text, LINE)
}

/// A label, line by line, with what is written between the lines. In it Graphviz takes backslashes and character references
/// for more than they are.
pub fn quoted(lines: &[String], between: &str) -> String {
    let escaped = |text: &String| text.replace('\\', "\\\\").replace('"', "\\\"").replace('&', "&amp;");
    let lines: Vec<String> = lines.iter().map(escaped).collect();
    format!("\"{}\"", lines.join(between))
}

/// A drawing whose first box is on top.
pub fn draw(graph: &Graph) -> String {
    let label = |lines: &[String]| quoted(&lines.iter().map(|text| line(text)).collect::<Vec<String>>(), "\\n");
    let mut text = format!("// {}\ndigraph counter_model {{\n", graph.title);
    text.push_str(&format!(
        "  label={};\n  labelloc=t;\n  node [shape=box];\n",
        label(&graph.captions)
    ));
    for (place, node) in graph.nodes.iter().enumerate() {
        let weight = if place == 0 { ", penwidth=2" } else { "" };
        text.push_str(&format!("  {} [label={}{weight}];\n", node.name, label(&node.lines)));
    }
    let name = |place: usize| {
        graph
            .nodes
            .get(place)
            .map(|node| node.name.as_str())
            .unwrap_or_default()
    };
    for arrow in &graph.arrows {
        let label = label(std::slice::from_ref(&arrow.label));
        text.push_str(&format!(
            "  {} -> {} [label={label}];\n",
            name(arrow.from),
            name(arrow.to)
        ));
    }
    text.push_str("}\n");
    text
}
