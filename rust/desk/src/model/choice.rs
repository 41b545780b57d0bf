//! Which survivors a small counter-model has, and which edges.

use super::{Edge, Model};
use base::vocabulary::{Saying, Vocabulary};
use judge::SURVIVOR_BYTES;
use std::collections::{BTreeSet, VecDeque};

/// How many candidates are weighed in search of a smaller model than the first one; a few milliseconds.
const WORK: usize = 50_000;

/// A small model around an element, closed under witnesses.
pub fn choose(element: u16, vocabulary: &Vocabulary, survivors: &[u8; SURVIVOR_BYTES]) -> Model {
    let restrictions = Restrictions::of(vocabulary);
    let profiles = restrictions.profiles(element, vocabulary, survivors);
    let Some((first, others)) = profiles.split_first() else {
        return Model {
            elements: vec![element],
            edges: Vec::new(),
        };
    };
    let mut search = Search {
        restrictions: &restrictions,
        candidates: others,
        chosen: vec![*first],
        work: usize::MAX,
    };
    // Every survivor is served by the survivors, so that the first one is found without a step back.
    search.close(usize::MAX);
    let mut chosen = std::mem::take(&mut search.chosen);
    search.work = WORK;
    for limit in 1..chosen.len() {
        search.chosen = vec![*first];
        if search.close(limit) {
            chosen = search.chosen;
            break;
        }
    }
    reached(element, &restrictions.edges(&chosen))
}

/// The restrictions of a vocabulary; each has a bit, in record order. There are at most 12 of them.
struct Restrictions {
    /// The record of each, its role and its filler.
    all: Vec<(u16, u16, u16)>,
    /// Those of kind 7.
    some: u16,
    /// The roles, each with its restrictions.
    roles: Vec<(u16, u16)>,
}

/// What of a survivor matters to witnesses.
#[derive(Clone, Copy)]
struct Profile {
    element: u16,
    /// The restrictions that hold.
    holds: u16,
    /// Those whose filler holds.
    fills: u16,
}

impl Restrictions {
    fn of(vocabulary: &Vocabulary) -> Restrictions {
        let (mut all, mut some, mut roles) = (Vec::new(), 0, Vec::<(u16, u16)>::new());
        for (number, saying) in vocabulary.sayings() {
            let bit = 1u16.checked_shl(all.len() as u32).unwrap_or(0);
            let (role, filler) = match saying {
                Saying::Some(role, filler) => {
                    some |= bit;
                    (role, filler)
                }
                Saying::All(role, filler) => (role, filler),
                _ => continue,
            };
            all.push((number, role, filler));
            match roles.iter_mut().find(|(known, _)| *known == role) {
                Some((_, bits)) => *bits |= bit,
                None => roles.push((role, bit)),
            }
        }
        Restrictions { all, some, roles }
    }

    /// The profile of an element, then one of each other profile that a survivor has: those with the fewest demands first,
    /// and of those with one profile the one with the fewest atoms that hold.
    fn profiles(&self, element: u16, vocabulary: &Vocabulary, survivors: &[u8; SURVIVOR_BYTES]) -> Vec<Profile> {
        let survives = |element: &u16| {
            let byte = survivors.get(usize::from(element / 8));
            byte.is_some_and(|byte| byte >> (element % 8) & 1 == 1)
        };
        let elements = (0..SURVIVOR_BYTES as u16 * 8).filter(survives);
        let mut profiles: Vec<Profile> = elements.map(|element| self.profile(element, vocabulary)).collect();
        profiles.sort_by_key(|profile| {
            let other = profile.element;
            let demands = self.demands(*profile).count_ones();
            (other != element, demands, other.count_ones(), other)
        });
        let mut known = BTreeSet::new();
        profiles.retain(|profile| known.insert((profile.holds, profile.fills)));
        profiles
    }

    fn profile(&self, element: u16, vocabulary: &Vocabulary) -> Profile {
        let truths = vocabulary.truths(element);
        let at = |number: u16| u16::from(truths.get(usize::from(number)) == Some(&true));
        let (mut holds, mut fills) = (0, 0);
        for (place, (number, _, filler)) in self.all.iter().enumerate().take(16) {
            holds |= at(*number) << place;
            fills |= at(*filler) << place;
        }
        Profile { element, holds, fills }
    }

    /// The restrictions that need a witness: some that hold, all that do not.
    fn demands(&self, from: Profile) -> u16 {
        let every = ((1u32 << self.all.len().min(16)) - 1) as u16;
        (self.some & from.holds) | (!self.some & !from.holds & every)
    }

    /// The demands among these restrictions, all of one role, that an element meets, where the pair is allowed.
    fn met_by(&self, from: Profile, to: Profile, of_role: u16) -> u16 {
        let against = (self.some & !from.holds & to.fills) | (!self.some & from.holds & !to.fills);
        if against & of_role != 0 {
            return 0;
        }
        let met = (self.some & to.fills) | (!self.some & !to.fills);
        met & of_role & self.demands(from)
    }

    /// The same of whatever role.
    fn met(&self, from: Profile, to: Profile) -> u16 {
        let met = self.roles.iter().map(|(_, of_role)| self.met_by(from, to, *of_role));
        met.fold(0, |all, met| all | met)
    }

    /// The demands of an element that none of these meets.
    fn unmet(&self, from: Profile, by: &[Profile]) -> u16 {
        let met = by.iter().fold(0, |all, to| all | self.met(from, *to));
        self.demands(from) & !met
    }

    /// As few edges as meet the demands of these elements among them.
    fn edges(&self, chosen: &[Profile]) -> Vec<Edge> {
        let mut edges = Vec::new();
        for from in chosen {
            for (role, of_role) in &self.roles {
                let targets = self.targets(*from, *of_role, chosen);
                edges.extend(targets.into_iter().map(|to| Edge {
                    from: from.element,
                    role: *role,
                    to,
                }));
            }
        }
        edges
    }

    /// Witnesses of an element by one role, those that meet most first.
    fn targets(&self, from: Profile, of_role: u16, chosen: &[Profile]) -> Vec<u16> {
        let mut open = self.demands(from) & of_role;
        let mut targets = Vec::new();
        while open != 0 {
            let meets = |to: &Profile| self.met_by(from, *to, of_role) & open;
            // Of those that meet as many, the one that was chosen first.
            let best = chosen.iter().rev().max_by_key(|to| meets(to).count_ones());
            match best.filter(|to| meets(to) != 0) {
                Some(to) => {
                    targets.push(to.element);
                    open &= !meets(to);
                }
                None => break,
            }
        }
        targets
    }
}

/// A search for a set of elements that has a witness for each demand of each.
struct Search<'a> {
    restrictions: &'a Restrictions,
    candidates: &'a [Profile],
    chosen: Vec<Profile>,
    /// How many candidates may still be weighed.
    work: usize,
}

impl Search<'_> {
    /// Adds elements until all demands are met, at most up to a number of them; whether that came to an end.
    fn close(&mut self, limit: usize) -> bool {
        let unmet =
            |from: &Profile| Some((*from, self.restrictions.unmet(*from, &self.chosen))).filter(|(_, d)| *d != 0);
        let Some((from, demands)) = self.chosen.iter().find_map(unmet) else {
            return true;
        };
        if self.chosen.len() >= limit {
            return false;
        }
        for candidate in self.weighed(from, demands) {
            self.chosen.push(candidate);
            if self.close(limit) {
                return true;
            }
            self.chosen.pop();
            if self.work == 0 {
                return false;
            }
        }
        false
    }

    /// The candidates that meet the first of these demands; those first after which least is left to meet.
    fn weighed(&mut self, from: Profile, demands: u16) -> Vec<Profile> {
        let first = demands & demands.wrapping_neg();
        let mut weighed = Vec::new();
        for (place, candidate) in self.candidates.iter().enumerate() {
            if self.work == 0 {
                break;
            }
            self.work -= 1;
            let met = self.restrictions.met(from, *candidate);
            if met & first != 0 {
                let left = demands & !met;
                let added =
                    self.restrictions.unmet(*candidate, &self.chosen) & !self.restrictions.met(*candidate, *candidate);
                weighed.push((left.count_ones() + added.count_ones(), place, *candidate));
            }
        }
        weighed.sort_by_key(|(weight, place, _)| (*weight, *place));
        weighed.into_iter().map(|(_, _, candidate)| candidate).collect()
    }
}

/// The model of what edges lead to from an element, the nearest first.
fn reached(element: u16, edges: &[Edge]) -> Model {
    let (mut elements, mut open) = (vec![element], VecDeque::from([element]));
    let mut kept = Vec::new();
    while let Some(from) = open.pop_front() {
        for edge in edges.iter().filter(|edge| edge.from == from) {
            kept.push(*edge);
            if !elements.contains(&edge.to) {
                elements.push(edge.to);
                open.push_back(edge.to);
            }
        }
    }
    Model { elements, edges: kept }
}
