//! Where boxes, arrows and labels stand.
//!
//! Boxes stand in layers by their distance from the first, which is on top. An arrow to the next layer goes through its
//! label, and between two layers all labels stand side by side. All other arrows but loops leave a box below, go by a lane
//! of their own to the right of all boxes, and come back above the box that they lead to; their labels stand at the lanes,
//! level with boxes. A loop stands at the right side of its box. So arrows cross arrows only, and never boxes or labels.

mod routes;

use super::width::{bold, width};
use super::{Arrow, Graph};
use std::collections::VecDeque;

/// The height of a line of text.
pub const LINE: i32 = 20;
/// What is left free inside a box, and around the whole.
pub const PAD: i32 = 10;
/// What is left free between boxes of a layer, and between labels.
const APART: i32 = 28;
/// The height in which the arrows of two layers bend, above and below their labels.
const BEND: i32 = 30;
/// What is left free between arrows that run side by side.
const TRACK: i32 = 10;
/// What is left free above a box for the head of an arrow that comes around.
const HEAD: i32 = 16;
/// How far a loop reaches from its box.
pub const LOOP: i32 = 36;
/// The height of a loop.
const LOOP_HEIGHT: i32 = 34;

/// A rectangle.
#[derive(Clone, Copy, Debug, Default, PartialEq, Eq)]
pub struct Area {
    /// Its left side.
    pub x: i32,
    /// Its upper side.
    pub y: i32,
    /// Its width.
    pub width: i32,
    /// Its height.
    pub height: i32,
}

impl Area {
    /// Its right side.
    pub fn right(self) -> i32 {
        self.x + self.width
    }

    /// Its lower side.
    pub fn bottom(self) -> i32 {
        self.y + self.height
    }

    fn middle(self) -> i32 {
        self.x + self.width / 2
    }
}

/// A point.
pub type Point = (i32, i32);

/// How an arrow runs.
#[derive(Clone, Debug, PartialEq, Eq)]
pub enum Route {
    /// From a box down to its label, and from there down to the next box.
    Down([Point; 4]),
    /// By these corners.
    Around(Vec<Point>),
    /// From the right side of a box and back to it, at this height.
    Loop(Point),
}

/// Where everything stands.
#[derive(Debug, Default)]
pub struct Layout {
    /// The width of the whole.
    pub width: i32,
    /// The height of the whole.
    pub height: i32,
    /// The boxes, in their order.
    pub boxes: Vec<Area>,
    /// Of each arrow, in their order, its route and where its label stands.
    pub arrows: Vec<(Route, Area)>,
}

/// The layout of a graph whose texts are as long as they are drawn.
pub fn lay_out(graph: &Graph) -> Layout {
    let mut plan = Plan::new(graph);
    plan.place_boxes();
    plan.place_ports();
    plan.place_arrows();
    plan.layout
}

/// The kinds of arrows by the layers that they join.
#[derive(Clone, Copy, PartialEq, Eq)]
enum Sort {
    Down,
    Around,
    Loop,
}

struct Plan<'a> {
    graph: &'a Graph,
    /// The layer of each box.
    layers: Vec<usize>,
    /// Where each arrow leaves its box, and where it comes to one.
    ports: Vec<[i32; 2]>,
    /// Of each layer, its upper and its lower side.
    bands: Vec<[i32; 2]>,
    /// The right side of all that stands in layers or between them.
    side: i32,
    layout: Layout,
}

impl<'a> Plan<'a> {
    fn new(graph: &'a Graph) -> Plan<'a> {
        Plan {
            graph,
            layers: layers(graph),
            ports: vec![[0; 2]; graph.arrows.len()],
            bands: Vec::new(),
            side: 0,
            layout: Layout {
                boxes: vec![Area::default(); graph.nodes.len()],
                ..Layout::default()
            },
        }
    }

    fn layer(&self, node: usize) -> usize {
        self.layers.get(node).copied().unwrap_or(0)
    }

    fn area(&self, node: usize) -> Area {
        self.layout.boxes.get(node).copied().unwrap_or_default()
    }

    fn sort(&self, arrow: &Arrow) -> Sort {
        match (self.layer(arrow.from), self.layer(arrow.to)) {
            _ if arrow.from == arrow.to => Sort::Loop,
            (from, to) if to == from + 1 => Sort::Down,
            _ => Sort::Around,
        }
    }

    /// The arrows of a sort, by their places.
    fn arrows(&self, sort: Sort) -> impl Iterator<Item = (usize, &'a Arrow)> + '_ {
        let all = self.graph.arrows.iter().enumerate();
        all.filter(move |(_, arrow)| self.sort(arrow) == sort)
    }

    fn nodes_of(&self, layer: usize) -> Vec<usize> {
        (0..self.graph.nodes.len())
            .filter(|node| self.layer(*node) == layer)
            .collect()
    }

    fn loops_of(&self, node: usize) -> Vec<usize> {
        let loops = self.arrows(Sort::Loop).filter(|(_, arrow)| arrow.from == node);
        loops.map(|(place, _)| place).collect()
    }

    /// The width of a box, and of what stands beside it.
    fn widths(&self, node: usize) -> [i32; 2] {
        let lines = self.graph.nodes.get(node).map(|node| node.lines.as_slice());
        let lines = lines.unwrap_or_default();
        let heading = lines.first().map(|heading| bold(heading));
        let widest = lines.iter().map(|line| width(line)).chain(heading).max();
        let labels = self.loops_of(node).into_iter().map(|place| self.label_width(place));
        let beside = labels.max().map_or(0, |label| LOOP + PAD + label);
        [widest.unwrap_or(0) + 2 * PAD, beside]
    }

    fn label_width(&self, arrow: usize) -> i32 {
        self.graph.arrows.get(arrow).map_or(0, |arrow| width(&arrow.label))
    }

    /// The height of the boxes of a layer.
    fn height(&self, nodes: &[usize]) -> i32 {
        let lines = |node: &usize| self.graph.nodes.get(*node).map_or(0, |node| node.lines.len() as i32);
        let height = |node: &usize| {
            let loops = self.loops_of(*node).len() as i32;
            (lines(node) * LINE + 2 * PAD).max(loops * LOOP_HEIGHT + PAD)
        };
        nodes.iter().map(height).max().unwrap_or(0)
    }

    /// The widths of the labels between a layer and the next.
    fn row(&self, layer: usize) -> i32 {
        let labels = self
            .arrows(Sort::Down)
            .filter(|(_, arrow)| self.layer(arrow.from) == layer);
        labels.map(|(place, _)| self.label_width(place) + APART).sum()
    }

    /// The arrows around that leave a layer, or that come to it, by their places.
    fn around(&self, layer: usize, end: impl Fn(&Arrow) -> usize) -> Vec<usize> {
        let wanted = self
            .arrows(Sort::Around)
            .filter(|(_, arrow)| self.layer(end(arrow)) == layer);
        wanted.map(|(place, _)| place).collect()
    }

    fn place_boxes(&mut self) {
        let last = self.layers.iter().copied().max().unwrap_or(0);
        let rows: Vec<Vec<usize>> = (0..=last).map(|layer| self.nodes_of(layer)).collect();
        let breadth = |nodes: &Vec<usize>| {
            let each = nodes.iter().map(|node| self.widths(*node).iter().sum::<i32>());
            each.sum::<i32>() + APART * (nodes.len() as i32 - 1)
        };
        let labels = (0..=last).map(|layer| self.row(layer));
        let breadths: Vec<i32> = rows.iter().map(breadth).collect();
        let widest = breadths.iter().copied().chain(labels).max().unwrap_or(0);
        self.side = 2 * PAD + widest;
        let mut y = 2 * PAD + LINE * self.graph.captions.len() as i32;
        for (layer, (nodes, breadth)) in rows.iter().zip(breadths).enumerate() {
            y += match self.around(layer, |arrow| arrow.to).len() as i32 {
                0 => PAD,
                tracks => HEAD + TRACK * tracks,
            };
            let height = self.height(nodes);
            let mut x = 2 * PAD + (widest - breadth) / 2;
            for node in nodes {
                let [width, beside] = self.widths(*node);
                if let Some(area) = self.layout.boxes.get_mut(*node) {
                    *area = Area { x, y, width, height };
                }
                x += width + beside + APART;
            }
            self.bands.push([y, y + height]);
            y += height + TRACK * self.around(layer, |arrow| arrow.from).len() as i32;
            y += if layer < last { 2 * BEND + LINE } else { 2 * PAD };
        }
        self.layout.height = y;
    }

    /// Spreads the arrows over the lower and the upper sides of boxes: those to or from the left first, those around last.
    fn place_ports(&mut self) {
        for node in 0..self.graph.nodes.len() {
            for end in [0, 1] {
                let here = |arrow: &Arrow| [arrow.from, arrow.to].get(end) == Some(&node);
                let there = |arrow: &Arrow| self.area(if end == 0 { arrow.to } else { arrow.from }).middle();
                let down = self.arrows(Sort::Down).filter(|(_, arrow)| here(arrow));
                let mut places: Vec<(i32, usize)> = down.map(|(place, arrow)| (there(arrow), place)).collect();
                places.sort_unstable();
                let around = self.arrows(Sort::Around).filter(|(_, arrow)| here(arrow));
                places.extend(around.map(|(place, _)| (0, place)));
                let (area, count) = (self.area(node), places.len() as i32 + 1);
                for (at, (_, place)) in (1..).zip(places) {
                    if let Some(port) = self.ports.get_mut(place).and_then(|ports| ports.get_mut(end)) {
                        *port = area.x + area.width * at / count;
                    }
                }
            }
        }
    }
}

/// The distance of each box from the first.
fn layers(graph: &Graph) -> Vec<usize> {
    let mut layers: Vec<Option<usize>> = vec![None; graph.nodes.len()];
    let mut open = VecDeque::from([(0, 0)]);
    while let Some((node, layer)) = open.pop_front() {
        match layers.get_mut(node) {
            Some(place @ None) => *place = Some(layer),
            _ => continue,
        }
        let onward = graph.arrows.iter().filter(|arrow| arrow.from == node);
        open.extend(onward.map(|arrow| (arrow.to, layer + 1)));
    }
    layers.into_iter().map(|layer| layer.unwrap_or(0)).collect()
}
