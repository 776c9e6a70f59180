//! Judges the answers of a session, line by line, by what evaluation from scratch gives.
//!
//! Where more than one answer is lawful, the answer that was given decides. What it leaves open is kept as several
//! readings: a reading that a later answer doesn't fit is dropped, and an answer that none fits is a disagreement.

use crate::commands::{Answer, answers};
use crate::counts::{Count, Counts};
use crate::evaluation::{Environments, Item, Items, NOWHERE, View};
use crate::state::{Body, Observer, State, Watch};
use crate::syntax::{Command, parse};
use crate::values::{Outcome, Value};
use std::cell::RefCell;
use std::collections::{BTreeSet, HashMap, HashSet, VecDeque};
use std::rc::Rc;

pub const GREATEST_DEPTH: u32 = 128;

/// A state that explains all answers so far, and the state as the last accepted stabilize left it.
#[derive(Clone, Default)]
struct Reading {
    before: Rc<State>,
    state: State,
    outlook: Option<Rc<Outlook>>,
}

/// What a stabilize of a state comes to.
#[derive(Default)]
pub struct Outlook {
    /// What the observers are to show.
    shown: Vec<Option<Outcome>>,
    /// Something that is needed reads in a circle or stands too deep.
    pub blocked: bool,
    /// The names that are met on a circle, and the names that a refusal for a height may print.
    pub circles: BTreeSet<usize>,
    pub too_high: BTreeSet<usize>,
    /// The binds whose left was met, and what it gives; whether it is needed.
    lefts: Vec<(usize, Outcome, bool)>,
    /// The freezes that are to keep a value.
    fires: Vec<(usize, Value)>,
    deepest: u32,
    /// How many needed places show something else by the clock than at the stabilize before.
    turned: u64,
    /// The variables that are needed.
    pub variables: Vec<usize>,
}

impl Outlook {
    /// What is needed is clear, but something that was needed and is turned away from isn't.
    pub fn passes_blocked(&self) -> bool {
        !self.blocked && !(self.circles.is_empty() && self.too_high.is_empty())
    }
}

/// An answer that no reading explains, and those that they have.
pub struct Disagreement {
    given: String,
    lawful: BTreeSet<String>,
}

impl std::fmt::Display for Disagreement {
    fn fmt(&self, f: &mut std::fmt::Formatter<'_>) -> std::fmt::Result {
        let lawful: Vec<&str> = self.lawful.iter().map(String::as_str).collect();
        write!(f, "answered: {}\nlawful:   {}", self.given.trim_end(), lawful.join("\n          "))
    }
}

/// The number that a printed line refuses with.
pub fn refused_with(printed: &[u8]) -> Option<u8> {
    let rest = std::str::from_utf8(printed).ok()?.strip_prefix("refused ")?;
    rest.split([' ', '\n']).next()?.parse().ok()
}

pub struct Judge {
    readings: Vec<Reading>,
    pub counts: Counts,
}

impl Judge {
    pub fn new() -> Judge {
        Judge { readings: vec![Reading::default()], counts: Counts::default() }
    }

    /// The state of the first reading.
    pub fn state(&self) -> &State {
        &self.readings[0].state
    }

    pub fn readings(&self) -> usize {
        self.readings.len()
    }

    pub fn outlook(&mut self) -> Rc<Outlook> {
        self.readings[0].outlook()
    }

    /// Goes on with the readings that the answer to a line fits.
    pub fn line(&mut self, line: &[u8], given: &[u8]) -> Result<(), Disagreement> {
        let parsed = parse(line);
        let mut lawful = BTreeSet::new();
        let mut following = Vec::new();
        let stabilizes = matches!(parsed, Ok(Some(Command::Stabilize)));
        for mut reading in std::mem::take(&mut self.readings) {
            if stabilizes && reading.state.broken.is_none() {
                let outlook = reading.outlook();
                match reading.stabilize(given) {
                    Some(readings) if following.is_empty() => {
                        self.count_stabilize(&reading, &outlook, &readings[0]);
                        following.extend(readings);
                    }
                    Some(readings) => following.extend(readings),
                    None => lawful.extend(reading.lawful()),
                }
                continue;
            }
            let Reading { before, state, outlook } = reading;
            for Answer { printed, state } in answers(state, &parsed) {
                if printed == given {
                    let outlook = if printed == b"ok\n" { None } else { outlook.clone() };
                    following.push(Reading { before: before.clone(), state, outlook });
                } else {
                    lawful.insert(String::from_utf8_lossy(&printed).trim_end().to_owned());
                }
            }
        }
        if following.is_empty() {
            return Err(Disagreement { given: String::from_utf8_lossy(given).into_owned(), lawful });
        }
        self.readings = distinct(following);
        self.count_line(&parsed, given);
        Ok(())
    }

    fn count_line(&mut self, parsed: &Result<Option<Command>, u8>, given: &[u8]) {
        let counts = &mut self.counts;
        counts.count(Count::Lines, 1);
        counts.count(Count::Readings, u64::from(self.readings.len() > 1));
        match parsed {
            _ if refused_with(given).is_some() => {}
            Ok(Some(Command::Watch(_))) => counts.count(Count::Watches, 1),
            Ok(Some(Command::Stabilize)) => {
                let notices = given.iter().filter(|byte| **byte == b'\n').count() - 1;
                counts.count(Count::Notices, notices as u64);
            }
            Ok(Some(Command::Show(_))) if given.ends_with(b"= invalid\n") => counts.count(Count::Invalid, 1),
            Ok(Some(Command::Show(_))) => counts.count(Count::Values, 1),
            Ok(Some(Command::Grab(..))) => counts.count(Count::Grabs, 1),
            Ok(Some(Command::Link(..))) => counts.count(Count::Links, 1),
            Ok(Some(Command::Unlink(..))) => counts.count(Count::Unlinks, 1),
            Ok(Some(Command::Stale(_))) => counts.count(Count::Stales, 1),
            Ok(Some(Command::Advance(_) | Command::AdvanceTo(_))) => counts.count(Count::Moves, 1),
            _ => {}
        }
        if let Some(number) = refused_with(given) {
            counts.refused(number);
        }
    }

    fn count_stabilize(&mut self, was: &Reading, outlook: &Outlook, reading: &Reading) {
        let counts = &mut self.counts;
        let passes = u64::from(outlook.passes_blocked());
        if reading.state.broken.is_some() {
            counts.count(Count::PassedRefused, passes);
            return;
        }
        counts.count(Count::Accepted, 1);
        counts.count(Count::PassedAccepted, passes);
        counts.count(Count::GreatestDepth, u64::from(outlook.deepest == GREATEST_DEPTH));
        counts.count(Count::Builds, outlook.builds(&was.state));
        counts.count(Count::Turned, outlook.turned);
        counts.count(Count::Frozen, outlook.fires.len() as u64);
        counts.count(Count::Deaths, (was.state.live.len() - reading.state.live.len()) as u64);
    }

    /// A lawful answer of the first reading, as an engine would give it.
    pub fn own_answer(&mut self, line: &[u8]) -> Vec<u8> {
        let reading = &mut self.readings[0];
        let parsed = parse(line);
        if matches!(parsed, Ok(Some(Command::Stabilize))) && reading.state.broken.is_none() {
            return format!("{}\n", reading.lawful()[0]).into_bytes();
        }
        answers(reading.state.clone(), &parsed).swap_remove(0).printed
    }
}

impl Reading {
    fn outlook(&mut self) -> Rc<Outlook> {
        if self.outlook.is_none() {
            self.outlook = Some(Rc::new(look(&self.before, &self.state)));
        }
        self.outlook.clone().expect("just looked")
    }

    /// The readings that a stabilize leaves, where the answer is lawful.
    fn stabilize(&mut self, given: &[u8]) -> Option<Vec<Reading>> {
        let outlook = self.outlook();
        if let Some(number) = refusal(&self.state, &outlook, given) {
            let mut state = self.state.clone();
            state.broken = Some(number);
            return Some(vec![Reading { before: self.before.clone(), state, outlook: None }]);
        }
        if outlook.blocked || given != outlook.accepted(&self.state) {
            return None;
        }
        let states = outlook.settled(&self.state);
        Some(states.into_iter().map(|state| Reading { before: Rc::new(state.clone()), state, outlook: None }).collect())
    }

    /// The answers that a stabilize may have, one circle for each name that is met on one.
    fn lawful(&mut self) -> Vec<String> {
        let outlook = self.outlook();
        let mut found = Vec::new();
        if !outlook.blocked {
            found.push(String::from_utf8_lossy(&outlook.accepted(&self.state)).trim_end().to_owned());
        }
        let name = |position: &usize| self.state.declared[*position].name.as_str();
        for &circle in &outlook.circles {
            let names = shortest_circle(&self.state, circle);
            found.push(format!("refused 20 cycle {}", names.iter().map(name).collect::<Vec<_>>().join(" ")));
        }
        found.extend(outlook.too_high.iter().map(|high| format!("refused 21 height {}", name(high))));
        found
    }
}

/// One of the readings that behave alike.
fn distinct(readings: Vec<Reading>) -> Vec<Reading> {
    let mut found: Vec<Reading> = Vec::with_capacity(readings.len());
    for reading in readings {
        if !found.iter().any(|other| other.state == reading.state && other.before == reading.before) {
            found.push(reading);
        }
    }
    found
}

// What a stabilize comes to.

fn look(before: &State, state: &State) -> Outlook {
    let environments = RefCell::default();
    let mut view = View::new(state, &environments);
    let needed = view.reached(state.roots().into_iter().map(Item::Name));
    let met = met(before, &mut view, &environments, &needed);
    let mut outlook = Outlook { circles: circles(&mut view, &met), ..Outlook::default() };
    outlook.variables =
        state.values.keys().copied().filter(|variable| needed.contains(&Item::Name(*variable))).collect();
    let turned = |item: &&Item| match item {
        Item::Place(place, _) => {
            let kind = &state.places[*place].kind;
            kind.by_the_clock(before.now) != kind.by_the_clock(state.now)
        }
        Item::Name(_) => false,
    };
    outlook.turned = needed.iter().filter(turned).count() as u64;
    for &item in &met {
        match view.depth(item) {
            Some(depth) if depth > GREATEST_DEPTH => {
                outlook.too_high.extend(printed_for(state, item));
                outlook.blocked |= needed.contains(&item);
            }
            Some(depth) if needed.contains(&item) => outlook.deepest = outlook.deepest.max(depth),
            Some(_) => {}
            // (it leads into a circle, so there are walks from it of any length)
            None => outlook.too_high.extend(printed_for(state, item)),
        }
    }
    outlook.blocked |= outlook.circles.iter().any(|&name| needed.contains(&Item::Name(name)));
    if !outlook.blocked {
        outlook.shown = state.observers.iter().map(|observer| view.name(observer.target)).collect();
        for (freeze, child, predicate) in state.unfrozen() {
            if let Some(Outcome::Value(value)) = view.place(child, NOWHERE) {
                if (predicate.meaning)(std::slice::from_ref(&value)) == Value::Bool(true) {
                    outlook.fires.push((freeze, value));
                }
            }
        }
    }
    for &bind in state.built.keys() {
        let (left, _) = state.bind(bind).expect("it is a bind");
        let item = Item::Place(left, NOWHERE);
        if met.contains(&item) {
            if let Some(outcome) = view.place(left, NOWHERE) {
                outlook.lefts.push((bind, outcome, needed.contains(&item)));
            }
        }
    }
    outlook
}

/// What is needed, and what is reached from what was needed before: from the names that were roots and are still, by
/// what they read then. Of that only what stands still: where the left of a bind round it has another value, it is
/// passed over.
fn met(before: &State, view: &mut View, environments: &RefCell<Environments>, needed: &Items) -> Items {
    let mut view_before = View::new(before, environments);
    let kept: Vec<Item> = before.roots().intersection(&view.state.roots()).copied().map(Item::Name).collect();
    let held = view_before.reached(kept);
    let still: Vec<Item> = held.into_iter().filter(|item| !needed.contains(item) && view.still_stands(*item)).collect();
    let mut met = view.reached(still);
    met.extend(needed);
    met
}

/// The names among these that are on a circle. What is on a circle has no answer.
fn circles(view: &mut View, items: &Items) -> BTreeSet<usize> {
    let names = items.iter().filter_map(|item| if let Item::Name(name) = item { Some(*name) } else { None });
    let suspects: Vec<usize> = names.filter(|name| view.name(*name).is_none()).collect();
    suspects.into_iter().filter(|name| circle_through(view, *name).is_some()).collect()
}

/// A shortest circle that begins and ends with a name.
fn circle_through(view: &mut View, name: usize) -> Option<Vec<usize>> {
    let mut came_from: HashMap<usize, usize> = HashMap::new();
    let mut waiting = VecDeque::from([name]);
    while let Some(at) = waiting.pop_front() {
        for read in view.names_read(at) {
            if view.name(read).is_none() && !came_from.contains_key(&read) {
                came_from.insert(read, at);
                waiting.push_back(read);
            }
        }
        if came_from.contains_key(&name) {
            let mut circle = vec![name, came_from[&name]];
            while *circle.last().expect("it has two entries") != name {
                circle.push(came_from[circle.last().expect("it has two entries")]);
            }
            circle.reverse();
            return Some(circle);
        }
    }
    None
}

fn shortest_circle(state: &State, name: usize) -> Vec<usize> {
    let environments = RefCell::default();
    circle_through(&mut View::new(state, &environments), name).expect("the name is on a circle")
}

/// The names that a refusal may print for an item that stands too deep: its own or its formula's, and the bind of a
/// grab.
fn printed_for(state: &State, item: Item) -> Vec<usize> {
    let name = match item {
        Item::Name(name) => name,
        Item::Place(place, _) => state.places[place].owner,
    };
    match state.declared[name].body {
        Body::Grab { bind, .. } => vec![name, bind],
        _ => vec![name],
    }
}

/// The number of a refusal, where a stabilize of the state may print it.
fn refusal(state: &State, outlook: &Outlook, given: &[u8]) -> Option<u8> {
    let printed = std::str::from_utf8(given).ok()?.strip_suffix('\n')?;
    let names = |words: &str| -> Option<Vec<usize>> {
        let found: Option<Vec<usize>> = words.split(' ').map(|word| state.find(word)).collect();
        found.filter(|names| names.iter().all(|name| state.target(*name) == *name))
    };
    if let Some(words) = printed.strip_prefix("refused 20 cycle ") {
        let names = names(words)?;
        let lists_one = names.iter().any(|name| outlook.circles.contains(name));
        return (lists_one && is_circle(state, &names)).then_some(20);
    }
    let names = names(printed.strip_prefix("refused 21 height ")?)?;
    (names.len() == 1 && outlook.too_high.contains(&names[0])).then_some(21)
}

fn is_circle(state: &State, names: &[usize]) -> bool {
    let environments = RefCell::default();
    let mut view = View::new(state, &environments);
    let [rest @ .., last] = names else { return false };
    let distinct: HashSet<usize> = rest.iter().copied().collect();
    !rest.is_empty()
        && rest[0] == *last
        && distinct.len() == rest.len()
        && names.windows(2).all(|pair| view.names_read(pair[0]).contains(&pair[1]))
}

/// Appends what is told of an observer that shows this from now on.
fn tell(state: &State, observer: &Observer, now: &Outcome, out: &mut Vec<u8>) {
    let told = match &observer.watch {
        Watch::Told(last) if last != now => Some(last),
        Watch::Off | Watch::Told(_) => return,
        Watch::Fresh => None,
    };
    out.extend_from_slice(observer.name.as_bytes());
    match (told, now) {
        (None, _) => {
            out.extend_from_slice(b" init ");
            state.print_outcome(now, out);
        }
        (Some(_), Outcome::Invalid) => out.extend_from_slice(b" invalid"),
        (Some(last), Outcome::Value(_)) => {
            out.extend_from_slice(b" change ");
            state.print_outcome(last, out);
            out.push(b' ');
            state.print_outcome(now, out);
        }
    }
    out.push(b'\n');
}

impl Outlook {
    /// What is printed where the stabilize is accepted: its line, and what is told of watched observers, in the order in
    /// which these were made.
    fn accepted(&self, state: &State) -> Vec<u8> {
        let mut printed = format!("stable {}\n", state.stabilizes + 1).into_bytes();
        for (observer, now) in state.observers.iter().zip(&self.shown) {
            tell(state, observer, now.as_ref().expect("nothing needed is on a circle"), &mut printed);
        }
        printed
    }

    /// The states that an accepted stabilize may leave. Whether a bind whose left was met, and isn't needed, was built
    /// is open: where it has a live grab, that lives or dies with it.
    fn settled(&self, state: &State) -> Vec<State> {
        let mut after = state.clone();
        after.stabilizes += 1;
        after.frozen.extend(self.fires.iter().cloned());
        for (observer, shown) in after.observers.iter_mut().zip(&self.shown) {
            observer.shown = shown.clone();
            if let (Watch::Fresh | Watch::Told(_), Some(now)) = (&observer.watch, shown) {
                observer.watch = Watch::Told(now.clone());
            }
        }
        let mut states = vec![after];
        for (bind, outcome, needed) in &self.lefts {
            let built = BTreeSet::from([Some(outcome.clone())]);
            if *needed {
                states.iter_mut().for_each(|state| state.build(*bind, built.clone()));
            } else if state.built[bind] != built && state.live_grab(*bind).is_none() {
                for state in &mut states {
                    state.built.get_mut(bind).expect("it is a bind").insert(Some(outcome.clone()));
                }
            } else if state.built[bind] != built {
                let mut others = states.clone();
                others.iter_mut().for_each(|state| state.build(*bind, built.clone()));
                states.extend(others);
            }
        }
        states
    }

    /// How many binds are built for another value, since they are needed.
    fn builds(&self, state: &State) -> u64 {
        let builds = |(bind, outcome, needed): &&(usize, Outcome, bool)| {
            *needed && *outcome != Outcome::Invalid && state.built[bind] != BTreeSet::from([Some(outcome.clone())])
        };
        self.lefts.iter().filter(builds).count() as u64
    }
}
