//! Chains of random steps, each of which connects, that seldom come to an end: they open the same
//! goal again and leave literals open and closed in all frames. They end where they are, or with a
//! reduction that comes near: against a literal that is not its frame's goal, or a goal of one sign.

use crate::comparison::Terms;
use crate::script::columns::Literal;
use crate::script::families;
use crate::script::plan::{matrix, refused, Plan};
use crate::script::prover::{opposed, Prover, Step, Term};
use crate::script::records::{step, REDUCTION};
use crate::vocabulary::records::{self, records};

/// A literal of a frame.
type Goal = Literal<Term>;

/// The frames of a walk, each with its literals and how many of them are closed; and its steps.
struct Walk {
    /// The frames.
    frames: Vec<(Vec<Goal>, usize)>,
    /// The steps.
    steps: Vec<Step>,
}

/// The most frames of a walk.
const MOST_FRAMES: usize = 12;
/// How many walks there are over each vocabulary.
const EACH: usize = 50;

/// Whether two literals are complements.
fn complements(l: &Goal, m: &Goal) -> bool {
    opposed(l, m) && l.arguments == m.arguments
}

impl Walk {
    /// The goals of the frames, of which the last is the one to close.
    fn goals(&self) -> Vec<Goal> {
        let goals = self
            .frames
            .iter()
            .filter_map(|(literals, closed)| literals.get(*closed));
        goals.cloned().collect()
    }

    /// Takes a step that leaves goals: they are the next frame, or the goal is closed, and with it
    /// each frame that has no other open literal.
    fn take(&mut self, taken: Step, left: Vec<Goal>) {
        self.steps.push(taken);
        if !left.is_empty() {
            self.frames.push((left, 0));
            return;
        }
        let is_done = |(literals, closed): &(Vec<Goal>, usize)| closed + 1 == literals.len();
        while self.frames.last().is_some_and(is_done) {
            self.frames.pop();
        }
        if let Some((_, closed)) = self.frames.last_mut() {
            *closed += 1;
        }
    }

    /// The frames below the last whose goal is no complement, for which a test of the goal, their
    /// own goal and their literals holds.
    fn frames_with(&self, test: impl Fn(&Goal, &Goal, &[Goal]) -> bool) -> Vec<u16> {
        let goals = self.goals();
        let Some((goal, path)) = goals.split_last() else {
            return Vec::new();
        };
        let numbered = (0..).zip(path.iter().zip(&self.frames));
        let near = numbered.filter(|(_, (own, (literals, _)))| !complements(own, goal) && test(goal, own, literals));
        near.map(|(frame, _)| frame).collect()
    }

    /// The frames that have a complement elsewhere, open or closed.
    fn near_frames(&self) -> Vec<u16> {
        self.frames_with(|goal, _, literals| literals.iter().any(|l| complements(l, goal)))
    }

    /// The frames that have the goal itself as their goal.
    fn same_frames(&self) -> Vec<u16> {
        self.frames_with(|goal, own, _| goal == own)
    }
}

impl Plan {
    /// Walks over vocabularies in which steps find much to connect with.
    pub fn walks(&mut self) {
        for make in families::ALL {
            self.walks_over(&make());
        }
    }

    /// Walks over a vocabulary.
    fn walks_over(&mut self, terms: &Terms) {
        let vocabulary = terms.clone().bytes();
        let all: Vec<u16> = records::terms(&records(&vocabulary))
            .into_iter()
            .map(|n| n as u16)
            .collect();
        for _ in 0..EACH {
            let query = [0, 1].map(|_| self.random.pick(&all).unwrap_or(1));
            let longest = 2 + self.random.below(24);
            let walk = self.walk(&vocabulary, query, longest);
            self.add_walk(&vocabulary, query, &walk);
        }
    }

    /// Steps from a start, up to so many or until all is closed. It stops where a reduction comes
    /// near, three times out of four.
    fn walk(&mut self, vocabulary: &[u8], query: [u16; 2], longest: usize) -> Walk {
        let mut prover = Prover::new(&matrix(vocabulary, query), &mut self.random);
        let start = prover.random.below(2) as u16;
        let mut walk = Walk {
            frames: vec![(prover.start(start).into_iter().collect(), 0)],
            steps: vec![Step::Start(start)],
        };
        while walk.steps.len() < longest && !walk.frames.is_empty() {
            if !walk.near_frames().is_empty() && !prover.random.chance(4) {
                break;
            }
            let goals = walk.goals();
            let Some((goal, path)) = goals.split_last() else {
                break;
            };
            let mut ways = prover.ways(goal, path);
            ways.retain(|(_, left)| left.is_empty() || walk.frames.len() < MOST_FRAMES);
            let Some((taken, left)) = ways.into_iter().next() else {
                break;
            };
            walk.take(taken, left);
        }
        walk
    }

    /// Adds a walk as it ended, or with a reduction that comes near.
    fn add_walk(&mut self, vocabulary: &[u8], query: [u16; 2], walk: &Walk) {
        let matrix = matrix(vocabulary, query);
        let idle = self.random.pick(&[0, 0, 4]).unwrap_or(0);
        let mut base = self.write(vocabulary, &matrix, &walk.steps, idle);
        let last = base.writer.place(walk.steps.len() - 1);
        let near = [walk.near_frames(), walk.same_frames()].concat();
        if walk.frames.is_empty() {
            self.add_base(base);
        } else if let Some(frame) = self.random.pick(&near) {
            let place = base.writer.records.len();
            base.writer.chained(step(REDUCTION, &[frame]));
            base.writer.link(&mut self.random);
            self.add(vocabulary, base.writer.bytes(), &refused(22, place));
        } else if self.random.chance(2) {
            self.add(vocabulary, base.writer.bytes(), &refused(24, last));
        }
    }
}
