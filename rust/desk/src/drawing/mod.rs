//! Drawings of boxes and labelled arrows: for Graphviz, and as SVG, laid out here.

pub mod dot;
mod layout;
pub mod svg;
#[cfg(test)]
pub mod tests;
mod width;
mod wrap;

/// What is drawn.
#[derive(Clone, Debug, Default, PartialEq, Eq)]
pub struct Graph {
    /// What it is called.
    pub title: String,
    /// What it shows, in words.
    pub description: String,
    /// What stands above it, line by line.
    pub captions: Vec<String>,
    /// The boxes. Arrows lead from the first to all others, be it through others.
    pub nodes: Vec<Node>,
    /// The arrows.
    pub arrows: Vec<Arrow>,
}

/// A box.
#[derive(Clone, Debug, PartialEq, Eq)]
pub struct Node {
    /// Its name, of a letter and digits.
    pub name: String,
    /// What stands in it: the first line is its heading.
    pub lines: Vec<String>,
}

/// An arrow from a box to another, by their places.
#[derive(Clone, Debug, PartialEq, Eq)]
pub struct Arrow {
    /// The box that it leads from.
    pub from: usize,
    /// The box that it leads to.
    pub to: usize,
    /// What stands at it.
    pub label: String,
}
