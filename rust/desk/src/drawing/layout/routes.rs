//! How arrows run, and where their labels stand.

use super::{Area, Plan, Route, Sort, APART, BEND, HEAD, LINE, LOOP, LOOP_HEIGHT, PAD, TRACK};
use crate::drawing::width::width;
use crate::drawing::Arrow;

/// The routes and labels of arrows, by their places.
type Routed = Vec<(usize, (Route, Area))>;

impl Plan<'_> {
    /// Gives each arrow its route, its label its area, and the whole its width.
    pub fn place_arrows(&mut self) {
        let mut routes = vec![(Route::Around(Vec::new()), Area::default()); self.graph.arrows.len()];
        let mut put = |place: usize, route: (Route, Area)| {
            if let Some(slot) = routes.get_mut(place) {
                *slot = route;
            }
        };
        for layer in 0..self.bands.len() {
            self.downs(layer)
                .into_iter()
                .for_each(|(place, route)| put(place, route));
        }
        for node in 0..self.graph.nodes.len() {
            let area = self.area(node);
            for (at, place) in (0..).zip(self.loops_of(node)) {
                let y = area.y + PAD / 2 + LOOP_HEIGHT * at + LOOP_HEIGHT / 2;
                let label = self.label(place, area.right() + LOOP, y);
                put(place, (Route::Loop((area.right(), y)), label));
            }
        }
        let (arounds, right) = self.arounds();
        arounds.into_iter().for_each(|(place, route)| put(place, route));
        self.layout.arrows = routes;
        let captions = self.graph.captions.iter().map(|line| width(line) + 2 * PAD);
        self.layout.width = captions.max().unwrap_or(0).max(right) + 2 * PAD;
    }

    /// The area of a label, by its left side and its middle.
    fn label(&self, arrow: usize, x: i32, middle: i32) -> Area {
        Area {
            x,
            y: middle - LINE / 2,
            width: self.label_width(arrow),
            height: LINE,
        }
    }

    /// The arrows from a layer to the next. Each label stands as near to the middle of its arrow as the others allow.
    fn downs(&self, layer: usize) -> Routed {
        let port = |place: usize| self.ports.get(place).copied().unwrap_or_default();
        let from_here = self
            .arrows(Sort::Down)
            .filter(|(_, arrow)| self.layer(arrow.from) == layer);
        let mut places: Vec<usize> = from_here.map(|(place, _)| place).collect();
        places.sort_by_key(|place| (port(*place).iter().sum::<i32>(), *place));
        let wanted = places.iter().map(|place| {
            let [from, to] = port(*place);
            let width = self.label_width(*place);
            ((from + to - width) / 2, width)
        });
        let lefts = spread(&wanted.collect::<Vec<(i32, i32)>>(), 2 * PAD, self.side);
        let [Some([_, upper]), below] = [layer, layer + 1].map(|layer| self.bands.get(layer).copied()) else {
            return Vec::new();
        };
        let lower = below.map_or(upper, |[top, _]| top);
        let tracks = TRACK * self.around(layer, |arrow| arrow.from).len() as i32;
        let middle = upper + tracks + BEND + LINE / 2;
        let routed = places.into_iter().zip(lefts).map(|(place, left)| {
            let (label, [from, to]) = (self.label(place, left, middle), port(place));
            let at = label.middle();
            let points = [(from, upper), (at, label.y), (at, label.bottom()), (to, lower)];
            (place, (Route::Down(points), label))
        });
        routed.collect()
    }

    /// The arrows around, each with a lane of its own, and the right side of the last lane.
    fn arounds(&self) -> (Routed, i32) {
        let span = |arrow: &Arrow| self.layer(arrow.from).abs_diff(self.layer(arrow.to));
        let mut places: Vec<(usize, &Arrow)> = self.arrows(Sort::Around).collect();
        places.sort_by_key(|(place, arrow)| (span(arrow), *place));
        let (mut routed, mut x) = (Vec::new(), self.side + PAD);
        for (place, arrow) in places {
            let [from, to] = self.ports.get(place).copied().unwrap_or_default();
            let (start, end) = (self.area(arrow.from), self.area(arrow.to));
            let below = start.bottom() + self.track(place, self.layer(arrow.from), |arrow| arrow.from);
            let above = end.y - HEAD - self.track(place, self.layer(arrow.to), |arrow| arrow.to) + TRACK;
            let corners = vec![
                (from, start.bottom()),
                (from, below),
                (x, below),
                (x, above),
                (to, above),
                (to, end.y),
            ];
            let label = self.label(place, x + PAD, (start.y + start.bottom()) / 2);
            x = label.right() + 2 * PAD;
            routed.push((place, (Route::Around(corners), label)));
        }
        let right = if routed.is_empty() { self.side } else { x - PAD };
        (routed, right)
    }

    /// How far from a layer an arrow around runs along it.
    fn track(&self, arrow: usize, layer: usize, end: impl Fn(&Arrow) -> usize) -> i32 {
        let tracks = self.around(layer, end);
        let at = tracks.iter().position(|place| *place == arrow).unwrap_or(0);
        TRACK * (at as i32 + 1)
    }
}

/// The left sides of things that stand side by side between two bounds, in their order, as near to the left sides that are
/// wanted as that allows. There is room for all.
fn spread(wanted: &[(i32, i32)], left: i32, right: i32) -> Vec<i32> {
    let (mut pushed_right, mut free) = (Vec::new(), left);
    let rest = |at: usize| -> i32 { wanted.iter().skip(at).map(|(_, width)| width + APART).sum() };
    for (at, (x, width)) in wanted.iter().enumerate() {
        let x = (*x).min(right + APART - rest(at)).max(free);
        pushed_right.push(x);
        free = x + width + APART;
    }
    let (mut places, mut end) = (pushed_right, right);
    let before = |at: usize| -> i32 { wanted.iter().take(at).map(|(_, width)| width + APART).sum() };
    for (at, (place, (x, width))) in places.iter_mut().zip(wanted).enumerate().rev() {
        let pushed_left = (*x).max(left + before(at)).min(end - width);
        end = pushed_left - APART;
        // What lies between two orders that keep apart keeps apart.
        *place = (*place + pushed_left) / 2;
    }
    places
}
