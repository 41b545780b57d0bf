//! Justifications: sets of statements that are enough for an answer, and of which none can be left out. Which sets are enough
//! is the library's to say, here by a function. A set with more statements is enough wherever one with fewer is, since fewer
//! interpretations satisfy it: so what is known of one set need not be asked of another.

mod set;
#[cfg(test)]
mod tests;

pub use set::Set;

/// The most nodes of the tree that are looked at. It may have as many as there are ways to take one statement of each
/// justification, which nobody would wait for.
const NODES: usize = 100_000;
/// The most questions after which another node is looked at.
const ASKED: u64 = 10_000;

/// A search for justifications. What it has found stays with it where a question has no answer.
pub struct Search<F> {
    /// Whether a set of statements is enough.
    is_enough: F,
    /// The statements that may be taken.
    statements: Set,
    /// Sets that are not enough.
    short: Vec<Set>,
    /// The justifications that are found.
    pub found: Vec<Set>,
    /// How many times it was asked whether a set is enough.
    pub asked: u64,
}

/// What is known of justifications beside those that are found.
#[derive(Clone, Copy, Debug, PartialEq, Eq)]
pub enum Others {
    /// There is none.
    None,
    /// There is one at least.
    Some,
    /// It is not known whether there is one.
    Unknown,
}

/// A node of the tree.
#[derive(Clone, Copy, Default)]
struct Node {
    /// The statements that are left out.
    out: Set,
    /// Those that are not left out below it, since nodes beside it do that: so no set is left out twice.
    kept: Set,
}

impl Node {
    /// The children of a node with this justification, from the last to the first.
    fn children(self, justification: Set) -> Vec<Node> {
        let mut children = Vec::new();
        let mut kept = self.kept;
        for statement in justification.without(self.kept).numbers() {
            let statement = Set::of([statement]);
            let out = self.out.and(statement);
            children.push(Node { out, kept });
            kept = kept.and(statement);
        }
        children.reverse();
        children
    }
}

impl<E, F: FnMut(Set) -> Result<bool, E>> Search<F> {
    /// A search among statements that are enough together.
    pub fn new(statements: Set, is_enough: F) -> Search<F> {
        Search {
            is_enough,
            statements,
            short: Vec::new(),
            found: Vec::new(),
            asked: 0,
        }
    }

    /// Finds one justification.
    pub fn first(&mut self) -> Result<Others, E> {
        let first = self.minimal(self.statements)?;
        self.found.push(first);
        // No other is a part of it, nor can any have it as a part.
        let is_only = first == Set::default() || first == self.statements;
        Ok(if is_only { Others::None } else { Others::Unknown })
    }

    /// Finds up to so many, by a hitting set tree (Reiter). Where the statements that a node does not leave out are enough, they
    /// have a justification, and each other justification lacks one of its statements: so there is a child for each of
    /// these. The tree is walked depth first, where justifications that share nothing are soon found.
    pub fn all(&mut self, most: usize) -> Result<Others, E> {
        self.first()?;
        let mut open = vec![Node::default()];
        let mut looked_at = 0;
        while let Some(node) = open.pop() {
            looked_at += 1;
            if looked_at > NODES || self.asked > ASKED {
                return Ok(Others::Unknown);
            }
            let Some(justification) = self.at(node, most)? else {
                return Ok(Others::Some);
            };
            open.extend(node.children(justification));
        }
        Ok(Others::None)
    }

    /// A justification without the statements that a node leaves out; the empty set where there is none. Nothing where it
    /// would be one too many.
    fn at(&mut self, node: Node, most: usize) -> Result<Option<Set>, E> {
        let known = self.found.iter().filter(|known| known.is_apart_from(node.out));
        // The one with the fewest children.
        if let Some(known) = known.min_by_key(|known| known.without(node.kept).count()) {
            return Ok(Some(*known));
        }
        let left = self.statements.without(node.out);
        if !self.is_enough(left)? {
            self.widen(left, node.out)?;
            return Ok(Some(Set::default()));
        }
        if self.found.len() >= most {
            return Ok(None);
        }
        let justification = self.minimal(left)?;
        self.found.push(justification);
        Ok(Some(justification))
    }

    /// Adds to statements that are not enough, as far as they do not become so: what is known of many is known of all parts,
    /// so that less has to be asked.
    fn widen(&mut self, statements: Set, out: Set) -> Result<(), E> {
        let mut short = statements;
        for statement in out.numbers() {
            let more = short.and(Set::of([statement]));
            if !self.is_enough(more)? {
                short = more;
            }
        }
        Ok(())
    }

    /// A minimal part that is enough, of statements that are enough: they are taken off all at once, then by halves, quarters
    /// and so on, and in the end one by one; what cannot go stays.
    fn minimal(&mut self, statements: Set) -> Result<Set, E> {
        let mut kept = statements;
        let mut run = statements.count();
        while run > 0 {
            kept = self.take_off(kept, run)?;
            run /= 2;
        }
        Ok(kept)
    }

    /// Takes off runs of so many statements, as far as the others are enough.
    fn take_off(&mut self, statements: Set, run: usize) -> Result<Set, E> {
        let mut kept = statements;
        for part in statements.numbers().chunks(run) {
            let without = kept.without(Set::of(part.iter().copied()));
            if self.is_enough(without)? {
                kept = without;
            }
        }
        Ok(kept)
    }

    /// Whether a set is enough. It is not asked where that is known from another set.
    fn is_enough(&mut self, set: Set) -> Result<bool, E> {
        if self.found.iter().any(|found| found.is_part_of(set)) {
            return Ok(true);
        }
        if self.short.iter().any(|short| set.is_part_of(*short)) {
            return Ok(false);
        }
        self.asked += 1;
        let is_enough = (self.is_enough)(set)?;
        if !is_enough {
            self.short.retain(|short| !short.is_part_of(set));
            self.short.push(set);
        }
        Ok(is_enough)
    }
}
