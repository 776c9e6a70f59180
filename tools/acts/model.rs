//! What stands between two calls of a necessary graph, as maps and sets, and what is worked out of it from scratch.
//! A point is told by its number among those of its session.

use std::collections::{BTreeMap, BTreeSet};

pub const GREATEST_HEIGHT: u32 = 128;
/// How many points a chain has that is too long.
pub const TOO_LONG: usize = 130;

#[derive(Clone, Default)]
pub struct Model {
    /// The points that are there, with their heights.
    pub heights: BTreeMap<usize, u32>,
    /// How often each root is one.
    pub roots: BTreeMap<usize, u32>,
    /// How often the first of two points reads the second.
    pub links: BTreeMap<(usize, usize), u32>,
    /// What is to be recomputed.
    pub heap: BTreeSet<usize>,
}

/// What comes of a link that is asked for.
#[derive(Clone, Copy, Debug, PartialEq, Eq, PartialOrd, Ord)]
pub enum Coming {
    /// The reader is higher than the kid already.
    Stays,
    /// Points that lead to the reader are lifted.
    Climbs,
    /// Lifted heights would pass the greatest one, but no chain is too long.
    Levels,
    Over,
    Path,
}

impl Model {
    pub fn reads(&self, p: usize, q: usize) -> bool {
        self.links.contains_key(&(p, q))
    }

    pub fn height(&self, p: usize) -> u32 {
        self.heights.get(&p).copied().unwrap_or(0)
    }

    pub fn web(&self, points: usize) -> Web {
        let mut web = Web { kids: vec![Vec::new(); points], readers: vec![Vec::new(); points] };
        for &(p, q) in self.links.keys() {
            web.link(p, q);
        }
        web
    }

    /// The points that are reached from a root.
    pub fn needed(&self, web: &Web) -> BTreeSet<usize> {
        web.reached(self.roots.keys().copied())
    }

    pub fn coming(&self, web: &Web, p: usize, q: usize) -> Coming {
        if web.reached([q]).contains(&p) {
            return Coming::Path;
        }
        if web.depths_above()[p] + web.depths()[q] + 2 >= TOO_LONG as u32 {
            return Coming::Over;
        }
        if self.height(q) < self.height(p) {
            return Coming::Stays;
        }
        let lifted = web.least_heights(|x| if x == p { self.height(q) + 1 } else { self.height(x) });
        if lifted.into_iter().any(|height| height > GREATEST_HEIGHT) { Coming::Levels } else { Coming::Climbs }
    }
}

/// Which points read which, whether once or more often.
#[derive(Clone)]
pub struct Web {
    pub kids: Vec<Vec<usize>>,
    pub readers: Vec<Vec<usize>>,
}

impl Web {
    pub fn link(&mut self, p: usize, q: usize) {
        self.kids[p].push(q);
        self.readers[q].push(p);
    }

    /// These points and all that they lead to.
    pub fn reached(&self, from: impl IntoIterator<Item = usize>) -> BTreeSet<usize> {
        reached(&self.kids, from)
    }

    /// A point and all that lead to it.
    pub fn leading(&self, to: usize) -> BTreeSet<usize> {
        reached(&self.readers, [to])
    }

    /// How many links the longest chain from each point has. No link leads back, here and below.
    pub fn depths(&self) -> Vec<u32> {
        self.least_heights(|_| 0)
    }

    /// The least heights that rise along all links and of which none is below these.
    pub fn least_heights(&self, least: impl Fn(usize) -> u32) -> Vec<u32> {
        heights(&self.kids, &least)
    }

    /// How many links the longest chain to each point has.
    pub fn depths_above(&self) -> Vec<u32> {
        heights(&self.readers, &|_| 0)
    }

    /// How many points the longest chain has.
    pub fn longest(&self) -> usize {
        self.depths().into_iter().max().map_or(0, |links| links as usize + 1)
    }
}

fn reached(next: &[Vec<usize>], from: impl IntoIterator<Item = usize>) -> BTreeSet<usize> {
    let mut waiting: Vec<usize> = from.into_iter().collect();
    let mut found: BTreeSet<usize> = waiting.iter().copied().collect();
    while let Some(p) = waiting.pop() {
        for &q in &next[p] {
            if found.insert(q) {
                waiting.push(q);
            }
        }
    }
    found
}

fn heights(next: &[Vec<usize>], least: &impl Fn(usize) -> u32) -> Vec<u32> {
    fn height(next: &[Vec<usize>], least: &impl Fn(usize) -> u32, found: &mut [Option<u32>], p: usize) -> u32 {
        if let Some(height) = found[p] {
            return height;
        }
        let above = next[p].iter().map(|q| height(next, least, found, *q) + 1).max();
        let height = least(p).max(above.unwrap_or(0));
        found[p] = Some(height);
        height
    }
    let mut found = vec![None; next.len()];
    (0..next.len()).map(|p| height(next, least, &mut found, p)).collect()
}
