//! What is counted, so that it can be seen what a campaign met.

use std::collections::BTreeMap;

#[derive(Clone, Copy)]
pub enum Count {
    Sessions,
    Lines,
    Accepted,
    PassedAccepted,
    PassedRefused,
    GreatestDepth,
    Builds,
    Grabs,
    Deaths,
    Values,
    Invalid,
    Readings,
    Moves,
    Turned,
    Watches,
    Notices,
    Frozen,
    Links,
    Unlinks,
    Stales,
}

const COUNTED: [&str; 20] = [
    "sessions",
    "lines answered as they may be",
    "stabilizes accepted",
    "stabilizes accepted that turned away from a circle or a height",
    "stabilizes refused for nothing but what they turned away from",
    "stabilizes accepted with something that stands at the greatest depth",
    "right sides of top binds built for another value",
    "grabs",
    "grabs that died",
    "values shown",
    "outcomes shown that are invalid",
    "lines behind which more than one reading stood",
    "moves of the clock",
    "needed places that the clock turned since the stabilize before",
    "watches",
    "notices",
    "freezes that came to keep a value",
    "links put on",
    "links taken off",
    "experts made stale",
];

#[derive(Default)]
pub struct Counts {
    counts: [u64; COUNTED.len()],
    /// Refused lines by the number of the refusal.
    refusals: BTreeMap<u8, u64>,
}

impl Counts {
    pub fn count(&mut self, what: Count, by: u64) {
        self.counts[what as usize] += by;
    }

    pub fn refused(&mut self, number: u8) {
        *self.refusals.entry(number).or_default() += 1;
    }

    pub fn of(&self, what: Count) -> u64 {
        self.counts[what as usize]
    }

    /// The stabilizes that were accepted, or refused for a circle or a height.
    pub fn stabilizes(&self) -> u64 {
        let refused = |number| self.refusals.get(&number).copied().unwrap_or(0);
        self.of(Count::Accepted) + refused(20) + refused(21)
    }

    pub fn add(&mut self, other: &Counts) {
        self.counts.iter_mut().zip(other.counts).for_each(|(sum, count)| *sum += count);
        other.refusals.iter().for_each(|(number, count)| *self.refusals.entry(*number).or_default() += count);
    }

    pub fn print(&self) {
        for (count, what) in self.counts.iter().zip(COUNTED) {
            println!("{count:>12} {what}");
        }
        for (number, count) in &self.refusals {
            println!("{count:>12} lines refused with {number}");
        }
    }
}
