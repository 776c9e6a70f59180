//! Chooses the points of a session and its acts at random, by what stands between two calls.

use crate::acts::{Act, Points};
use crate::model::{Coming, GREATEST_HEIGHT, Model, Web};
use std::collections::{BTreeSet, VecDeque};

/// How many pairs are tried for a link of the wanted kind.
const MOST_TRIES: usize = 12;
/// How many points are drawn where the one that stands out most is taken.
const DRAWN: usize = 4;
const MANY_DRAWN: usize = 24;

/// Numbers that look random: the same for the same seed.
struct Chance(u64);

impl Chance {
    fn draw(&mut self) -> u64 {
        self.0 = self.0.wrapping_add(0x9e37_79b9_7f4a_7c15);
        let mixed = (self.0 ^ (self.0 >> 30)).wrapping_mul(0xbf58_476d_1ce4_e5b9);
        let mixed = (mixed ^ (mixed >> 27)).wrapping_mul(0x94d0_49bb_1331_11eb);
        mixed ^ (mixed >> 31)
    }

    fn below(&mut self, bound: usize) -> usize {
        (self.draw() % bound as u64) as usize
    }

    fn percent(&mut self, chance: usize) -> bool {
        self.below(100) < chance
    }

    fn pick(&mut self, of: &[usize]) -> Option<usize> {
        if of.is_empty() { None } else { Some(of[self.below(of.len())]) }
    }

    /// Of some that are drawn, the one that stands out most.
    fn pick_most(&mut self, of: &[usize], drawn: usize, most: impl Fn(usize) -> u32) -> Option<usize> {
        (0..drawn).filter_map(|_| self.pick(of)).max_by_key(|p| most(*p))
    }
}

/// What the graphs of a session look like.
#[derive(Clone, Copy)]
enum Shape {
    /// Few points, which meet often.
    Small,
    /// Many points in chains about as long as they may be.
    Chains,
    /// Points at heights of all kinds, and links between any of them.
    Wide,
}

pub struct Chooser {
    chance: Chance,
    shape: Shape,
    points: usize,
    planned: VecDeque<Act>,
}

/// What the acts are chosen by.
struct View<'a> {
    model: &'a Model,
    web: Web,
    needed: BTreeSet<usize>,
    there: Vec<usize>,
    needed_there: Vec<usize>,
    /// How many links the longest chains to and from each point have.
    above: Vec<u32>,
    below: Vec<u32>,
}

impl Chooser {
    pub fn new(seed: u64, session: u64) -> (Chooser, Points) {
        let mut chance = Chance(seed.wrapping_mul(0x2545_f491_4f6c_dd1d) ^ session.wrapping_mul(0xd605_bbb5_8c8a_bc03));
        let (shape, least, more) = match session % 4 {
            0 | 2 => (Shape::Chains, 160, 120),
            1 => (Shape::Small, 6, 20),
            _ => (Shape::Wide, 40, 60),
        };
        let count = least + chance.below(more);
        let mut places = BTreeSet::new();
        while places.len() < count {
            // (some points have a slot in common, and some have slots far off)
            let far = if chance.percent(10) { 1 << 20 } else { 0 };
            places.insert((far + chance.below(count), chance.below(3) as u64, chance.percent(60)));
        }
        let leaf_chance = [0, 10, 40][chance.below(3)];
        let leaves = (0..count).filter(|_| chance.percent(leaf_chance)).collect();
        let points = Points::new(places, leaves);
        (Chooser { chance, shape, points: count, planned: VecDeque::new() }, points)
    }

    /// An act that the contract allows, and how often it finds memory.
    pub fn next(&mut self, model: &Model) -> (Act, u64) {
        let web = model.web(self.points);
        let needed = model.needed(&web);
        let view = View {
            model,
            there: model.heights.keys().copied().collect(),
            needed_there: needed.iter().copied().collect(),
            above: web.depths_above(),
            below: web.depths(),
            web,
            needed,
        };
        loop {
            let Some(act) = self.planned.pop_front() else {
                self.plan(&view);
                continue;
            };
            if act.is_allowed(model, &view.needed) {
                // (a chain that is to grow grows to its end)
                let memory = match act.takes_memory() {
                    true if self.planned.is_empty() && self.chance.percent(6) => self.chance.below(12) as u64,
                    true => u64::MAX,
                    false => 0,
                };
                return (act, memory);
            }
        }
    }

    fn plan(&mut self, view: &View) {
        let any = self.chance.below(self.points);
        let act = match self.chance.below(100) {
            0..=4 => {
                let height = self.first_height();
                Some(Act::Add(any, height))
            }
            5..=8 => {
                let unneeded: Vec<usize> = view.there.iter().copied().filter(|p| !view.needed.contains(p)).collect();
                self.chance.pick(&unneeded).map(Act::DropPoint)
            }
            9..=12 => self.chance.pick(&view.there).map(Act::RootOn),
            13..=16 => self.chance.pick(&view.model.roots.keys().copied().collect::<Vec<_>>()).map(Act::RootOff),
            17..=48 => self.link(view),
            49..=57 => self.unlink(view),
            58..=60 => self.reduce(view),
            61..=70 => self.chance.pick(&view.needed_there).map(Act::Insert),
            71..=77 => {
                let passed_over = [0, 20, 60][self.chance.below(3)];
                let skipped = (0..self.points).filter(|_| self.chance.percent(passed_over)).collect();
                let read: Vec<usize> = view.model.links.keys().map(|link| link.1).collect();
                let point = if self.chance.percent(20) { any } else { self.chance.pick(&read).unwrap_or(any) };
                Some(Act::InsertReaders(point, skipped))
            }
            78..=81 => {
                let waiting: Vec<usize> = view.model.heap.iter().copied().collect();
                let point = if self.chance.percent(30) { any } else { self.chance.pick(&waiting).unwrap_or(any) };
                Some(Act::Remove(point))
            }
            82..=91 => Some(Act::PopLeast),
            92 => {
                self.planned.extend((0..=view.model.heap.len()).map(|_| Act::PopLeast));
                None
            }
            _ => {
                self.grow(view);
                None
            }
        };
        self.planned.extend(act);
    }

    fn first_height(&mut self) -> u32 {
        match (self.shape, self.chance.below(10)) {
            (Shape::Wide, 0..=6) | (_, 0) => self.chance.below(GREATEST_HEIGHT as usize + 1) as u32,
            (_, 1) => GREATEST_HEIGHT - self.chance.below(20) as u32,
            _ => 0,
        }
    }

    /// A link, if one is found of a kind that is drawn.
    fn link(&mut self, view: &View) -> Option<Act> {
        if self.chance.percent(8) && !view.model.links.is_empty() {
            // (once more)
            let (p, q) = self.any_link(view);
            return Some(Act::Link(p, q));
        }
        let wanted = match (self.shape, self.chance.below(100)) {
            (Shape::Chains, 0..=34) => Coming::Levels,
            (Shape::Chains, 35..=49) => Coming::Over,
            (Shape::Chains, 50..=59) | (_, 0..=24) => Coming::Path,
            (_, 25..=64) => Coming::Climbs,
            (_, 65..=74) => Coming::Levels,
            _ => Coming::Stays,
        };
        let mut link = None;
        for _ in 0..MOST_TRIES {
            let (p, q) = self.pair(view, wanted)?;
            link = Some(Act::Link(p, q));
            if view.model.coming(&view.web, p, q) == wanted {
                break;
            }
        }
        link
    }

    /// A needed point, and one that it may come to read.
    fn pair(&mut self, view: &View, wanted: Coming) -> Option<(usize, usize)> {
        match wanted {
            Coming::Path => {
                let p = self.chance.pick(&view.needed_there)?;
                let mut q = p;
                for _ in 0..self.chance.below(2 * GREATEST_HEIGHT as usize) {
                    match self.chance.pick(&view.web.readers[q]) {
                        Some(reader) => q = reader,
                        None => break,
                    }
                }
                Some((p, q))
            }
            Coming::Levels => {
                let p = self.chance.pick_most(&view.needed_there, DRAWN, |p| view.above[p])?;
                let q = self.chance.pick_most(&view.there, DRAWN, |q| view.model.height(q))?;
                Some((p, q))
            }
            Coming::Over => {
                let p = self.chance.pick_most(&view.needed_there, MANY_DRAWN, |p| view.above[p])?;
                let q = self.chance.pick_most(&view.there, DRAWN, |q| view.below[q])?;
                Some((p, q))
            }
            Coming::Stays | Coming::Climbs => {
                let p = self.chance.pick(&view.needed_there)?;
                Some((p, self.chance.pick(&view.there)?))
            }
        }
    }

    fn any_link(&mut self, view: &View) -> (usize, usize) {
        let number = self.chance.below(view.model.links.len());
        *view.model.links.keys().nth(number).expect("there are as many")
    }

    /// One link off, or all of one pair.
    fn unlink(&mut self, view: &View) -> Option<Act> {
        if view.model.links.is_empty() {
            return None;
        }
        let mut link = self.any_link(view);
        if let (Shape::Chains, true) = (self.shape, self.chance.percent(70)) {
            // (mostly near a chain's end, so that it stays long)
            let drawn = (0..DRAWN).map(|_| self.any_link(view));
            link = drawn.min_by_key(|link| view.below[link.0]).unwrap_or(link);
        }
        let (p, q) = link;
        if self.chance.percent(20) {
            self.planned.extend((1..view.model.links[&(p, q)]).map(|_| Act::Unlink(p, q)));
        }
        Some(Act::Unlink(p, q))
    }

    fn reduce(&mut self, view: &View) -> Option<Act> {
        let p = self.chance.pick(&view.needed_there)?;
        let kept = self.chance.pick(&view.web.kids[p]).filter(|_| self.chance.percent(80));
        Some(Act::Reduce(p, kept.unwrap_or_else(|| self.chance.below(self.points))))
    }

    /// A chain of points that aren't needed comes below one that is, mostly about as long as it may be.
    fn grow(&mut self, view: &View) {
        let end = match self.chance.below(10) {
            0..=4 => self.chance.pick_most(&view.needed_there, MANY_DRAWN, |p| view.above[p]),
            5..=8 => self.chance.pick(&view.needed_there),
            _ => None,
        };
        let mut spare: Vec<usize> = (0..self.points).filter(|p| !view.needed.contains(p)).collect();
        for i in (1..spare.len()).rev() {
            spare.swap(i, self.chance.below(i + 1));
        }
        let room = GREATEST_HEIGHT as usize + 1 - end.map_or(0, |p| view.above[p] as usize);
        let length = match self.shape {
            Shape::Chains if self.chance.percent(50) => room.min(1 + self.chance.below(2 * room)),
            _ => 1 + self.chance.below(if let Shape::Small = self.shape { 3 } else { 30 }),
        };
        let Some(mut end) = end.or_else(|| spare.pop()) else { return };
        let falls = self.chance.percent(20);
        let mut height = view.model.height(end);
        if !view.needed.contains(&end) {
            self.planned.extend([Act::Add(end, height), Act::RootOn(end)]);
        }
        for next in spare.into_iter().take(length) {
            // (heights that fall along the chain, so that none is lifted)
            height = if falls { height.saturating_sub(1) } else { self.first_height() };
            self.planned.extend([Act::Add(next, height), Act::Link(end, next)]);
            end = next;
        }
        // (some more below its end, for which it may be too long)
        self.planned.extend((0..4).map(|_| Act::Link(end, self.chance.below(self.points))));
    }
}
