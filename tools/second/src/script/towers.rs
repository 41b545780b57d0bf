//! Terms that hold everywhere or nowhere, made of top and bottom in layers, and their derivations:
//! each layer opens a frame, so that the limit of frames can be met exactly.

use crate::comparison::Terms;
use crate::random::Random;
use crate::script::chain::MOST_FRAMES;
use crate::script::plan::{matrix, refused, Base, Plan};
use crate::script::prover::{applied, Extension, Step, Term};
use crate::script::records::{set, EXTENSION, KIND, POSITION};
use crate::script::writer::Writer;

/// A term that holds everywhere or nowhere, and the extension that its derivation begins with.
#[derive(Clone)]
struct Layer {
    /// The number of the term.
    number: u16,
    /// Whether it holds everywhere.
    holds: bool,
    /// Owner, column and position of the extension.
    by: [u16; 3],
    /// The layers whose derivations follow, as the column's other literals ask.
    under: Vec<usize>,
    /// The function by which they are applied, for kinds 7 and 8.
    function: Option<u16>,
    /// Whether the column has y, and so r(x,y) before the layers.
    with_pair: bool,
}

/// A vocabulary of such terms.
pub struct Tower {
    /// The vocabulary.
    pub terms: Terms,
    /// The layers, each over earlier ones.
    layers: Vec<Layer>,
    /// A some-record within which top lies, whose function names pairs of role 0, and the statement.
    serial: [u16; 2],
}

/// A derivation in the making.
struct Derivation {
    /// The steps so far.
    steps: Vec<Step>,
    /// The step that opens the first frame over the limit.
    over: Option<usize>,
}

/// The first layer of every tower.
const TOP: usize = 0;
/// The second layer of every tower.
const BOTTOM: usize = 1;

impl Layer {
    /// A layer whose column is its own; `by` is column and position.
    fn own(number: u16, holds: bool, by: [u16; 2], under: &[usize]) -> Layer {
        let [column, position] = by;
        Layer {
            number,
            holds,
            by: [number, column, position],
            under: under.to_vec(),
            function: None,
            with_pair: false,
        }
    }
}

impl Tower {
    /// Top and bottom, and a role of which everything has a pair.
    pub fn new() -> Tower {
        let mut terms = Terms::new(2);
        let (top, bottom) = (terms.top(), terms.bottom());
        let some = terms.some(0, top);
        let stated = terms.within(top, some);
        let leaf = |number, holds| Layer::own(number, holds, [0, 0], &[]);
        Tower {
            terms,
            layers: vec![leaf(top, true), leaf(bottom, false)],
            serial: [some, stated],
        }
    }

    /// The last layer.
    fn last(&self) -> usize {
        self.layers.len() - 1
    }

    /// The number of a layer's term, and whether it holds everywhere; 0, which is no term, where there is no
    /// such layer.
    fn term(&self, layer: usize) -> (u16, bool) {
        self.layers.get(layer).map_or((0, false), |l| (l.number, l.holds))
    }

    /// Adds a layer whose column is its own; `by` is column and position.
    fn push(&mut self, number: u16, holds: bool, by: [u16; 2], under: &[usize]) {
        self.layers.push(Layer::own(number, holds, by, under));
    }

    /// A complement.
    fn not(&mut self, of: usize) {
        let (number, holds) = self.term(of);
        let not = self.terms.not(number);
        self.push(not, !holds, [u16::from(!holds), 0], &[of]);
    }

    /// What needs both: and of two that hold, or of two that do not.
    fn both(&mut self, one: usize, other: usize) {
        let [(j, holds), (k, _)] = [one, other].map(|layer| self.term(layer));
        let number = match holds {
            true => self.terms.and(j, k),
            false => self.terms.or(j, k),
        };
        self.push(number, holds, [2, 0], &[one, other]);
    }

    /// What needs one: or with one that holds, and with one that does not; the other is any term.
    fn either(&mut self, of: usize, random: &mut Random) {
        let (number, holds) = self.term(of);
        let (other, _) = self.term(random.below(self.layers.len()));
        let column = random.below(2) as u16;
        let [j, k] = match column {
            0 => [number, other],
            _ => [other, number],
        };
        let number = match holds {
            true => self.terms.or(j, k),
            false => self.terms.and(j, k),
        };
        self.push(number, holds, [column, 0], &[of]);
    }

    /// A name that a statement puts above or below.
    fn name(&mut self, of: usize) {
        let (number, holds) = self.term(of);
        let name = self.terms.name();
        let ([a, b], position) = match holds {
            true => ([number, name], 1),
            false => ([name, number], 0),
        };
        let statement = self.terms.within(a, b);
        self.terms.aside(a, b);
        self.layers.push(Layer {
            by: [statement, 0, position],
            ..Layer::own(name, holds, [0, position], &[of])
        });
    }

    /// All role to what holds, some role to what does not.
    fn restriction(&mut self, of: usize, role: u16) {
        let (number, holds) = self.term(of);
        let number = match holds {
            true => self.terms.all(role, number),
            false => self.terms.some(role, number),
        };
        self.layers.push(Layer {
            function: Some(number),
            ..Layer::own(number, holds, [1, 0], &[of])
        });
    }

    /// Some role to what holds, all role to what does not: by the pair that everything has.
    fn pair(&mut self, of: usize) {
        let (number, holds) = self.term(of);
        let number = match holds {
            true => self.terms.some(0, number),
            false => self.terms.all(0, number),
        };
        let [some, _] = self.serial;
        self.layers.push(Layer {
            function: Some(some),
            with_pair: true,
            ..Layer::own(number, holds, [2, 0], &[of])
        });
    }

    /// Adds a layer of a random sort over the last one.
    fn grow(&mut self, random: &mut Random) {
        let of = self.last();
        match random.below(7) {
            0 => self.not(of),
            1 => {
                let (_, holds) = self.term(of);
                let low = if holds { TOP } else { BOTTOM };
                match random.below(2) {
                    0 => self.both(low, of),
                    _ => self.both(of, low),
                }
            }
            2 => self.either(of, random),
            3 => self.name(of),
            4 | 5 => self.restriction(of, random.below(2) as u16),
            _ => self.pair(of),
        }
    }

    /// How many frames the derivation of a layer opens above the one of its goal.
    fn height(&self, layer: usize) -> usize {
        let under = self.layers.get(layer).into_iter().flat_map(|l| &l.under);
        let highest = under.map(|u| self.height(*u)).max();
        // The pair's own derivation opens two.
        let with_pair = self.layers.get(layer).is_some_and(|l| l.with_pair);
        highest.map_or(0, |h| 1 + h.max(2 * usize::from(with_pair)))
    }

    /// A tower whose derivation opens so many frames above its first.
    pub fn random(height: usize, random: &mut Random) -> Tower {
        let mut tower = Tower::new();
        while tower.height(tower.last()) < height {
            tower.grow(random);
        }
        tower
    }

    /// A tower whose derivation has exactly so many extensions, by doubling; on few records.
    pub fn counted(steps: usize, holds: bool) -> Tower {
        let mut tower = Tower::new();
        tower.count(steps, holds);
        tower
    }

    /// Adds layers, and answers the one whose derivation has so many extensions.
    fn count(&mut self, steps: usize, holds: bool) -> usize {
        if steps == 1 {
            return if holds { TOP } else { BOTTOM };
        }
        if steps % 2 == 1 {
            let half = self.count(steps / 2, holds);
            self.both(half, half);
        } else {
            let rest = self.count(steps - 1, !holds);
            self.not(rest);
        }
        self.last()
    }

    /// Adds names until there are so many records.
    pub fn pad(&mut self, count: usize) {
        while self.terms.len() < count {
            self.terms.name();
        }
    }

    /// The query that asks for the last layer: whether top lies within it, or it within bottom.
    fn query(&self) -> [u16; 2] {
        match self.term(self.last()) {
            (number, true) => [self.term(TOP).0, number],
            (number, false) => [number, self.term(BOTTOM).0],
        }
    }

    /// The derivation of the query.
    fn derivation(&self) -> Derivation {
        let (_, holds) = self.term(self.last());
        let mut derivation = Derivation {
            steps: vec![Step::Start(holds.into())],
            over: None,
        };
        self.derive(self.last(), &Term::new(), 1, &mut derivation);
        derivation
    }

    /// Adds the derivation of a layer at a term, with so many frames open.
    fn derive(&self, layer: usize, x: &Term, frames: usize, derivation: &mut Derivation) {
        let Some(layer) = self.layers.get(layer) else {
            return;
        };
        let inner = layer.function.map_or(x.clone(), |f| applied(f, x));
        let y = layer.with_pair.then(|| inner.clone());
        derivation.extend(layer.by, x, y, frames + usize::from(!layer.under.is_empty()));
        if layer.with_pair {
            let [some, stated] = self.serial;
            let (top, _) = self.term(TOP);
            derivation.extend([some, 0, 1], x, None, frames + 2);
            derivation.extend([stated, 0, 1], x, None, frames + 3);
            derivation.extend([top, 0, 0], x, None, frames + 3);
        }
        for under in &layer.under {
            self.derive(*under, &inner, frames + 1, derivation);
        }
    }

    /// The script of the derivation, with idle records once in `idle` times, and the place where
    /// it opens a frame over the limit.
    pub fn script(&self, idle: usize, plan: &mut Plan) -> (Base, Option<usize>) {
        let vocabulary = self.terms.clone().bytes();
        let derivation = self.derivation();
        let matrix = matrix(&vocabulary, self.query());
        let base = plan.write(&vocabulary, &matrix, &derivation.steps, idle);
        let place = derivation.over.map(|step| base.writer.place(step));
        (base, place)
    }
}

impl Derivation {
    /// Adds an extension after which so many frames are open.
    fn extend(&mut self, by: [u16; 3], x: &Term, y: Option<Term>, frames: usize) {
        let [owner, column, position] = by;
        if frames > MOST_FRAMES && self.over.is_none() {
            self.over = Some(self.steps.len());
        }
        self.steps.push(Step::Extension(Extension {
            owner,
            column,
            x: x.clone(),
            y,
            position,
        }));
    }
}

/// Heights, and how many towers of each are made.
const LOW: [(usize, usize); 5] = [(1, 6), (2, 10), (3, 16), (5, 20), (9, 16)];
/// The same around the limit.
const HIGH: [(usize, usize); 6] = [(20, 4), (40, 3), (62, 4), (63, 10), (64, 24), (70, 8)];

impl Plan {
    /// Towers that are low enough to be damaged at all places.
    pub fn low_towers(&mut self) {
        self.towers(&LOW);
    }

    /// Towers below, at and over the limit of frames.
    pub fn high_towers(&mut self) {
        self.towers(&HIGH);
    }

    /// Towers of given heights.
    fn towers(&mut self, heights: &[(usize, usize)]) {
        for (height, count) in heights {
            for _ in 0..*count {
                let tower = Tower::random(*height, &mut self.random);
                let idle = self.random.pick(&[0, 0, 4]).unwrap_or(0);
                let (base, over) = tower.script(idle, self);
                match over {
                    None => self.add_base(base),
                    Some(place) => self.over(&base, place),
                }
            }
        }
    }

    /// A script that opens a 65th frame, and the same with the extension not complementary, or the
    /// chain ended before it.
    fn over(&mut self, base: &Base, place: usize) {
        let Base { vocabulary, writer } = base;
        self.add(vocabulary, writer.bytes(), &refused(23, place));
        if self.random.chance(2) {
            return;
        }
        let mut wrong = writer.clone();
        let record = writer.record(place);
        debug_assert_eq!(record[KIND], EXTENSION);
        set(&mut wrong.records, place, POSITION, 1 - record[POSITION].min(1));
        self.add(vocabulary, wrong.bytes(), &refused(21, place));
        let before = writer.chain.iter().rposition(|step| *step < place);
        self.cut(vocabulary, writer, before.unwrap_or(0));
    }

    /// The script with its chain ended at a step, by its number on the chain.
    pub fn cut(&mut self, vocabulary: &[u8], writer: &Writer, last: usize) {
        let mut wrong = writer.clone();
        wrong.chain.truncate(last + 1);
        wrong.link_chain();
        self.add(vocabulary, wrong.bytes(), &refused(24, writer.place(last)));
    }
}
