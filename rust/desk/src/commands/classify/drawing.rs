//! Taxonomies as a drawing for Graphviz, as ontology editors draw them.

#[cfg(test)]
mod tests;

use crate::drawing::dot::{self, quoted, LINE};
use crate::files::Name;
use crate::taxonomy::{Class, Taxonomy};
use crate::text::vocabulary::Written;

/// What stands before the first node. The broader is drawn above the narrower.
const BEGINNING: &str = "\
// Names in one box are equal; its arrows lead to their nearest broader names.
digraph taxonomy {
  rankdir=BT;
  node [shape=box];
";

/// What marks the box of names to which nothing can belong, as editors do.
const EMPTY: &str = ", color=red, fontcolor=red";

/// What stands between the names in a box.
const EQUAL: &str = "\\n= ";

/// A drawing of taxonomies.
pub struct Drawing {
    text: String,
    /// Whether each has a frame of its own.
    framed: bool,
    /// How many there are.
    count: usize,
}

impl Drawing {
    /// An empty one.
    pub fn new(framed: bool) -> Drawing {
        Drawing {
            text: BEGINNING.to_string(),
            framed,
            count: 0,
        }
    }

    /// All of it.
    pub fn text(mut self) -> String {
        self.text.push_str("}\n");
        self.text
    }

    /// Adds the taxonomy of a file.
    pub fn add(&mut self, file: &Name, written: &Written, taxonomy: &Taxonomy) {
        self.count += 1;
        let prefix = match self.framed {
            true => format!("v{}_", self.count),
            false => String::new(),
        };
        let nodes = Nodes {
            written,
            taxonomy,
            prefix,
        };
        let lines = nodes.lines();
        if !self.framed {
            self.text.extend(lines.iter().map(|line| format!("  {line}\n")));
            return;
        }
        let label = quoted(&[ending(file.as_str())], EQUAL);
        self.text
            .push_str(&format!("  subgraph cluster_{} {{\n    label={label};\n", self.count));
        self.text.extend(lines.iter().map(|line| format!("    {line}\n")));
        self.text.push_str("  }\n");
    }
}

/// The nodes and arrows of a taxonomy.
struct Nodes<'a> {
    written: &'a Written,
    taxonomy: &'a Taxonomy,
    /// What the name of each node begins with, so that no two taxonomies share one.
    prefix: String,
}

impl Nodes<'_> {
    fn lines(&self) -> Vec<String> {
        let mut lines = vec![self.top()];
        for class in self.taxonomy.classes.iter().filter(|class| !class.full) {
            lines.push(self.node(class));
        }
        for class in self.taxonomy.classes.iter().filter(|class| !class.full) {
            lines.extend(self.arrows(class));
        }
        lines
    }

    /// owl:Thing, with the names that are equal to it; with owl:Nothing, where nothing satisfies the statements.
    fn top(&self) -> String {
        let (mut names, mut mark) = (vec!["owl:Thing".to_string()], "");
        if self.taxonomy.is_contradictory() {
            names.push("owl:Nothing".to_string());
            mark = EMPTY;
        }
        let full = self.taxonomy.classes.iter().filter(|class| class.full);
        names.extend(full.flat_map(|class| self.called(class)));
        format!("{}thing [label={}{mark}];", self.prefix, quoted(&names, EQUAL))
    }

    /// The node of a class.
    fn node(&self, class: &Class) -> String {
        let (mut names, mut mark) = (Vec::new(), "");
        if class.empty {
            names.push("owl:Nothing".to_string());
            mark = EMPTY;
        }
        names.extend(self.called(class));
        format!("{} [label={}{mark}];", self.name(class), quoted(&names, EQUAL))
    }

    /// The arrows from a class to the nearest broader ones, or to owl:Thing.
    fn arrows(&self, class: &Class) -> Vec<String> {
        let broader = class
            .broader
            .iter()
            .filter_map(|number| self.taxonomy.classes.get(*number));
        let mut names: Vec<String> = broader.map(|broader| self.name(broader)).collect();
        if names.is_empty() {
            names.push(format!("{}thing", self.prefix));
        }
        let arrow = |broader: &String| format!("{} -> {broader};", self.name(class));
        names.iter().map(arrow).collect()
    }

    /// The name of the node of a class: that of its first name, which no other has.
    fn name(&self, class: &Class) -> String {
        let first = class.names.first().copied().filter(|_| !class.full);
        let text = first.and_then(|name| self.written.expression(usize::from(name)));
        format!("{}{}", self.prefix, text.as_deref().unwrap_or("thing"))
    }

    fn called<'a>(&'a self, class: &'a Class) -> impl Iterator<Item = String> + 'a {
        class.names.iter().map(|name| dot::line(&self.written.called(*name)))
    }
}

/// The end of a path that may be too long for a line: there its files differ.
fn ending(path: &str) -> String {
    let over = path.chars().count().saturating_sub(LINE);
    let end: String = path.chars().skip(over).collect();
    match over {
        0 => end,
        _ => format!(".. {end}"),
    }
}
