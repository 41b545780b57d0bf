//! Drawings as SVG 1.1, which browsers show. There are no ids and no style sheets in them, so that several can stand in one
//! page.

use super::layout::{lay_out, Area, Point, Route, LINE, LOOP, PAD};
use super::width::{width, FONT};
use super::wrap::{wrap, INDENT};
use super::{Arrow, Graph, Node};
use crate::display::{beginning, plain};

/// The most characters of a line in a box, of a label, and of a line above the drawing.
const IN_BOX: usize = 40;
const AT_ARROW: usize = 30;
const ABOVE: usize = 90;
/// How far the base of letters lies below the upper side of their line.
const BASE: i32 = 15;
/// How far corners are rounded.
const ROUND: i32 = 8;

/// The drawing as a file of its own.
pub fn file(graph: &Graph) -> String {
    format!("<?xml version=\"1.0\" encoding=\"UTF-8\"?>\n{}", element(graph))
}

/// The drawing as an element, which can stand in a page.
pub fn element(graph: &Graph) -> String {
    let graph = &shown(graph);
    let layout = lay_out(graph);
    let (across, height) = (layout.width, layout.height);
    let mut text = format!(
        "<svg xmlns=\"http://www.w3.org/2000/svg\" version=\"1.1\" width=\"{across}\" height=\"{height}\" \
         viewBox=\"0 0 {across} {height}\" font-family=\"sans-serif\" font-size=\"{FONT}\" direction=\"ltr\">\n\
         <title>{}</title>\n<desc>{}</desc>\n\
         <rect width=\"{across}\" height=\"{height}\" fill=\"#ffffff\"/>\n",
        escaped(&graph.title),
        escaped(&graph.description),
    );
    for (at, caption) in (0..).zip(&graph.captions) {
        text.push_str(&line((2 * PAD, PAD + LINE * at), caption, ""));
    }
    for (arrow, (route, label)) in graph.arrows.iter().zip(&layout.arrows) {
        text.push_str(&drawn_arrow(arrow, route, *label));
    }
    for (place, (node, area)) in graph.nodes.iter().zip(&layout.boxes).enumerate() {
        text.push_str(&drawn_box(node, *area, place == 0));
    }
    text.push_str("</svg>\n");
    text
}

/// The graph with texts as long as they are drawn, without characters that would be followed.
fn shown(graph: &Graph) -> Graph {
    let wrapped = |lines: &[String], most: usize| lines.iter().flat_map(|line| wrap(&visible(line), most)).collect();
    let mut shown = graph.clone();
    shown.captions = wrapped(&graph.captions, ABOVE);
    for node in &mut shown.nodes {
        node.lines = wrapped(&node.lines, IN_BOX);
    }
    for arrow in &mut shown.arrows {
        arrow.label = shortened(&visible(&arrow.label), AT_ARROW);
    }
    shown
}

/// The beginning of a long label and its last word, which tells long names of roles apart.
fn shortened(label: &str, most: usize) -> String {
    match label.rsplit_once(' ') {
        Some((front, last)) if label.chars().count() > most && last.chars().count() < most / 2 => {
            let most = most - last.chars().count() - 1;
            format!("{} {last}", beginning(front, most))
        }
        _ => beginning(label, most),
    }
}

/// A text of characters that XML can have, and that are seen.
fn visible(text: &str) -> String {
    let mut visible = String::new();
    for character in plain(text).chars() {
        match character {
            '\t' => visible.push(' '),
            '\u{fffe}' | '\u{ffff}' => visible.extend(character.escape_unicode()),
            other => visible.push(other),
        }
    }
    visible
}

/// A text as XML has it; it may have several lines.
fn escaped(text: &str) -> String {
    let lines: Vec<String> = text.lines().map(visible).collect();
    let text = lines.join("\n").replace('&', "&amp;");
    text.replace('<', "&lt;").replace('>', "&gt;").replace('"', "&quot;")
}

/// A line of text, by the upper left corner of its area. Not all programs draw the blanks before one that goes on.
fn line((x, y): Point, text: &str, more: &str) -> String {
    let (x, text) = match text.strip_prefix(INDENT) {
        Some(text) => (x + width(INDENT), text),
        None => (x, text),
    };
    format!("<text x=\"{x}\" y=\"{}\"{more}>{}</text>\n", y + BASE, escaped(text))
}

/// A box; the first has a thicker border.
fn drawn_box(node: &Node, area: Area, is_first: bool) -> String {
    let Area { x, y, width, height } = area;
    let border = if is_first { 3 } else { 1 };
    let mut text = format!(
        "<rect x=\"{x}\" y=\"{y}\" width=\"{width}\" height=\"{height}\" rx=\"4\" fill=\"#f7f7f7\" stroke=\"#222222\" \
         stroke-width=\"{border}\"/>\n"
    );
    for (at, words) in (0..).zip(&node.lines) {
        let bold = if at == 0 { " font-weight=\"bold\"" } else { "" };
        text.push_str(&line((x + PAD, y + PAD + LINE * at), words, bold));
    }
    text
}

fn drawn_arrow(arrow: &Arrow, route: &Route, label: Area) -> String {
    let (path, head) = match route {
        Route::Down([start, above, below, end]) => {
            let bent = format!("{} {}", bend(*start, *above), bend(*below, lifted(*end)));
            (bent, down(*end))
        }
        Route::Around(corners) => (rounded(corners), down(corners.last().copied().unwrap_or_default())),
        Route::Loop(at) => looped(*at),
    };
    format!(
        "<path d=\"{path}\" fill=\"none\" stroke=\"#222222\"/>\n<path d=\"{head}\" fill=\"#222222\"/>\n{}",
        line((label.x, label.y), &arrow.label, " font-style=\"italic\"")
    )
}

/// A curve that begins and ends upright.
fn bend((x, y): Point, (to_x, to_y): Point) -> String {
    let middle = (y + to_y) / 2;
    format!("M {x} {y} C {x} {middle} {to_x} {middle} {to_x} {to_y}")
}

/// The end of a line below which an arrow's head stands.
fn lifted((x, y): Point) -> Point {
    (x, y - ROUND)
}

/// An arrow's head that points down.
fn down((x, y): Point) -> String {
    format!("M {} {} L {} {} L {x} {y} Z", x - 4, y - 9, x + 4, y - 9)
}

/// A line by corners, which are rounded.
fn rounded(corners: &[Point]) -> String {
    let mut text = String::new();
    for (at, corner) in corners.iter().enumerate() {
        let (x, y) = *corner;
        let [before, after] = [at.wrapping_sub(1), at + 1].map(|near| corners.get(near).copied());
        text.push_str(&match (before, after) {
            (None, _) => format!("M {x} {y}"),
            (_, None) => format!(" L {x} {}", y - ROUND),
            (Some(before), Some(after)) => {
                let [(a, b), (c, d)] = [toward(*corner, before), toward(*corner, after)];
                format!(" L {a} {b} Q {x} {y} {c} {d}")
            }
        });
    }
    text
}

/// The point near a corner on the way to the next.
fn toward((x, y): Point, (to_x, to_y): Point) -> Point {
    let step = |from: i32, to: i32| from + ((to - from) / 2).clamp(-ROUND, ROUND);
    (step(x, to_x), step(y, to_y))
}

/// A loop at the right side of a box, and its head.
fn looped((x, y): Point) -> (String, String) {
    let (far, upper, lower) = (x + LOOP, y - 8, y + 8);
    let path = format!(
        "M {x} {upper} C {far} {} {far} {} {} {lower}",
        upper - 8,
        lower + 8,
        x + ROUND
    );
    let head = format!("M {} {} L {} {} L {x} {lower} Z", x + 9, lower - 4, x + 9, lower + 4);
    (path, head)
}
