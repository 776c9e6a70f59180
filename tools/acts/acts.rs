//! Acts on a necessary graph, and what is seen of one.

use crate::model::Model;
use inc_value::{NodeId, Part, Point};
use kit::Global;
use necessary_graph::{Leaves, LinkFault, NecessaryGraph, Skip};
use std::collections::{BTreeMap, BTreeSet, HashMap};

#[derive(Clone, Debug)]
pub enum Act {
    Add(usize, u32),
    DropPoint(usize),
    RootOn(usize),
    RootOff(usize),
    Link(usize, usize),
    Unlink(usize, usize),
    /// All links of the first point come off but those to the second.
    Reduce(usize, usize),
    Insert(usize),
    /// These readers of the point are passed over.
    InsertReaders(usize, BTreeSet<usize>),
    Remove(usize),
    PopLeast,
}

pub const NAMES: [&str; 11] = [
    "add",
    "drop_point",
    "root_on",
    "root_off",
    "link",
    "unlink",
    "reduce",
    "insert",
    "insert_readers",
    "remove",
    "pop_least",
];

impl Act {
    pub fn name(&self) -> &'static str {
        let number = match self {
            Act::Add(..) => 0,
            Act::DropPoint(..) => 1,
            Act::RootOn(..) => 2,
            Act::RootOff(..) => 3,
            Act::Link(..) => 4,
            Act::Unlink(..) => 5,
            Act::Reduce(..) => 6,
            Act::Insert(..) => 7,
            Act::InsertReaders(..) => 8,
            Act::Remove(..) => 9,
            Act::PopLeast => 10,
        };
        NAMES[number]
    }

    /// Whether the act may ask for memory.
    pub fn takes_memory(&self) -> bool {
        matches!(self, Act::Add(..) | Act::RootOn(..) | Act::Link(..))
    }

    /// Whether the contract lets the act be done.
    pub fn is_allowed(&self, model: &Model, needed: &BTreeSet<usize>) -> bool {
        let there = |p: &usize| model.heights.contains_key(p);
        match self {
            Act::Add(p, _) => !there(p),
            Act::DropPoint(p) => there(p) && !needed.contains(p),
            Act::RootOn(p) => there(p),
            Act::RootOff(p) => model.roots.contains_key(p),
            Act::Link(p, q) => needed.contains(p) && there(q),
            Act::Unlink(p, q) => model.reads(*p, *q),
            Act::Reduce(p, _) | Act::Insert(p) => needed.contains(p),
            Act::InsertReaders(..) | Act::Remove(_) | Act::PopLeast => true,
        }
    }
}

#[derive(Debug, PartialEq)]
pub enum Answer {
    Done,
    /// Whether the point wasn't needed before.
    Newly(bool),
    Path(Vec<usize>),
    Over(Vec<usize>),
    NoMemory,
    Popped(Option<usize>),
}

/// What the readers of a graph tell of the points of a session.
#[derive(Default)]
pub struct Seen {
    pub heights: BTreeMap<usize, u32>,
    pub roots: BTreeSet<usize>,
    pub needed: BTreeSet<usize>,
    pub links_by_kids: BTreeMap<(usize, usize), u32>,
    pub links_by_readers: BTreeMap<(usize, usize), u32>,
    pub reads: BTreeSet<(usize, usize)>,
    pub heap: BTreeSet<usize>,
}

/// The points of a session, and a graph over them.
pub struct Points {
    points: Vec<Point>,
    numbers: HashMap<(usize, u64, bool), usize>,
    pub leaves: BTreeSet<usize>,
}

fn key(p: Point) -> (usize, u64, bool) {
    (p.node.slot, p.node.gen_, p.part == Part::Main)
}

impl Points {
    pub fn new(places: impl IntoIterator<Item = (usize, u64, bool)>, leaves: BTreeSet<usize>) -> Points {
        let mut all = Points { points: Vec::new(), numbers: HashMap::new(), leaves };
        for (slot, gen_, main) in places {
            let part = if main { Part::Main } else { Part::Change };
            let p = Point { node: NodeId { slot, gen_ }, part };
            all.numbers.insert(key(p), all.points.len());
            all.points.push(p);
        }
        all
    }

    pub fn len(&self) -> usize {
        self.points.len()
    }

    fn number(&self, p: Point) -> usize {
        *self.numbers.get(&key(p)).unwrap_or_else(|| panic!("{p:?} is no point of the session"))
    }

    fn all(&self, points: &[Point]) -> Vec<usize> {
        points.iter().map(|p| self.number(*p)).collect()
    }

    /// Does an act that the contract allows.
    pub fn perform(&self, graph: &mut NecessaryGraph, act: &Act) -> Answer {
        let at = |p: &usize| self.points[*p];
        match act {
            Act::Add(p, height) => graph.add(at(p), *height).map_or(Answer::NoMemory, |()| Answer::Done),
            Act::RootOn(p) => graph.root_on(at(p)).map_or(Answer::NoMemory, Answer::Newly),
            Act::Link(p, q) => match graph.link(at(p), at(q)) {
                Ok(newly) => Answer::Newly(newly),
                Err(LinkFault::Path(path)) => Answer::Path(self.all(&path)),
                Err(LinkFault::Over(chain)) => Answer::Over(self.all(&chain)),
                Err(LinkFault::Memory) => Answer::NoMemory,
            },
            Act::PopLeast => Answer::Popped(graph.pop_least().map(|p| self.number(p))),
            Act::DropPoint(p) => done(graph.drop_point(at(p))),
            Act::RootOff(p) => done(graph.root_off(at(p), self)),
            Act::Unlink(p, q) => done(graph.unlink(at(p), at(q), self)),
            Act::Reduce(p, kept) => done(graph.reduce(at(p), at(kept), self)),
            Act::Insert(p) => done(graph.insert(at(p))),
            Act::InsertReaders(q, skipped) => done(graph.insert_readers(at(q), &Skipped { points: self, skipped })),
            Act::Remove(p) => done(graph.remove(at(p))),
        }
    }

    /// All that the readers tell. Whether a point reads another is asked of all pairs in turn, some each time.
    pub fn see(&self, graph: &NecessaryGraph, time: usize) -> Seen {
        let mut seen = Seen::default();
        for (p, &point) in self.points.iter().enumerate() {
            if graph.is_there(point) {
                seen.heights.insert(p, graph.height(point));
            }
            if graph.is_root(point) {
                seen.roots.insert(p);
            }
            if graph.is_needed(point) {
                seen.needed.insert(p);
            }
            if graph.holds(point) {
                seen.heap.insert(p);
            }
            for kid in graph.kids(point) {
                *seen.links_by_kids.entry((p, self.number(kid))).or_default() += 1;
            }
            for reader in graph.readers(point) {
                *seen.links_by_readers.entry((self.number(reader), p)).or_default() += 1;
            }
        }
        for pair in self.pairs_asked(&seen, time) {
            if graph.reads(self.points[pair.0], self.points[pair.1]) {
                seen.reads.insert(pair);
            }
        }
        seen
    }

    /// The pairs of which it is asked whether the first point reads the second.
    pub fn pairs_asked(&self, seen: &Seen, time: usize) -> BTreeSet<(usize, usize)> {
        let count = self.len();
        let in_turn = (0..count).map(|p| (p, (p + time) % count));
        in_turn.chain(seen.links_by_kids.keys().copied()).collect()
    }
}

fn done((): ()) -> Answer {
    Answer::Done
}

impl Leaves for Points {
    fn has(&self, p: Point) -> bool {
        self.numbers.get(&key(p)).is_some_and(|p| self.leaves.contains(p))
    }
}

struct Skipped<'a> {
    points: &'a Points,
    skipped: &'a BTreeSet<usize>,
}

impl Skip for Skipped<'_> {
    fn skips(&self, p: Point) -> bool {
        self.skipped.contains(&self.points.number(p))
    }
}

pub fn no_points() -> NecessaryGraph {
    NecessaryGraph::new(Global)
}
