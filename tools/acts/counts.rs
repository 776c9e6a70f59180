//! How often what was met.

use crate::acts::{Act, Answer, NAMES};
use crate::model::{Coming, Model};
use std::collections::BTreeMap;

#[derive(Default)]
pub struct Counts {
    acts: BTreeMap<&'static str, u64>,
    links: BTreeMap<Coming, u64>,
    no_memory: u64,
    /// Acts behind which points are needed no more, and these points, and the leaves among them.
    sweeps: u64,
    swept: u64,
    leaves: u64,
    popped: u64,
    /// Acts behind which a chain is as long as it may be.
    longest: u64,
}

impl Counts {
    pub fn acts(&self) -> u64 {
        self.acts.values().sum()
    }

    /// Counts an act that was judged right.
    pub fn count(&mut self, before: &Model, act: &Act, answer: &Answer, after: &Model, points: usize) {
        *self.acts.entry(act.name()).or_default() += 1;
        let web = before.web(points);
        match (act, answer) {
            (_, Answer::NoMemory) => self.no_memory += 1,
            (_, Answer::Popped(Some(_))) => self.popped += 1,
            (Act::Link(p, q), _) => *self.links.entry(before.coming(&web, *p, *q)).or_default() += 1,
            (Act::RootOff(_) | Act::Unlink(..) | Act::Reduce(..), _) => {
                let needed = after.needed(&after.web(points));
                let swept = before.needed(&web).difference(&needed).count() as u64;
                self.sweeps += u64::from(swept > 0);
                self.swept += swept;
                self.leaves += (before.heights.len() - after.heights.len()) as u64;
            }
            _ => {}
        }
        self.longest += u64::from(after.web(points).longest() == 129);
    }

    pub fn print(&self, sessions: u64) {
        let of = |coming| self.links.get(&coming).copied().unwrap_or(0);
        let acts: Vec<String> =
            NAMES.iter().map(|name| format!("{name} {}", self.acts.get(name).copied().unwrap_or(0))).collect();
        println!("acts       {} in {sessions} sessions: {}", self.acts(), acts.join(", "));
        println!("links      {} at heights as they were, {} that lifted points", of(Coming::Stays), of(Coming::Climbs));
        println!("levellings {}", of(Coming::Levels));
        println!("paths      {}", of(Coming::Path));
        println!("chains     {} refused; behind {} acts one of 129 points", of(Coming::Over), self.longest);
        println!("sweeps     {} of {} points, {} leaves dropped", self.sweeps, self.swept, self.leaves);
        println!("heap       {} points popped", self.popped);
        println!("memory     not found by {} acts", self.no_memory);
    }
}
