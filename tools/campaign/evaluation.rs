//! Plain evaluation: what names and places are worth in one state, what they read, and how deep they stand, each from
//! the formulas alone. Nothing passes from one state to another.

use crate::state::{Body, Kind, State};
use crate::values::{Function, Outcome, Value};
use std::cell::RefCell;
use std::collections::{BTreeSet, HashMap, HashSet};
use std::hash::{BuildHasherDefault, Hasher};

/// A quick hash: items are numbers.
#[derive(Default)]
pub struct Mixed(u64);

impl Hasher for Mixed {
    fn write(&mut self, bytes: &[u8]) {
        bytes.iter().for_each(|byte| self.write_u64(u64::from(*byte)));
    }

    fn write_u32(&mut self, number: u32) {
        self.write_u64(u64::from(number));
    }

    fn write_u64(&mut self, number: u64) {
        self.0 = (self.0.rotate_left(23) ^ number).wrapping_mul(0x9e37_79b9_7f4a_7c15);
    }

    fn write_usize(&mut self, number: usize) {
        self.write_u64(number as u64);
    }

    fn write_isize(&mut self, number: isize) {
        self.write_u64(number as u64);
    }

    fn finish(&self) -> u64 {
        self.0 ^ (self.0 >> 32)
    }
}

type Quick = BuildHasherDefault<Mixed>;
pub type Items = HashSet<Item, Quick>;

/// The values of the bind variables round a place, by number; `NOWHERE` stands outside of all bodies.
pub type Environment = u32;
pub const NOWHERE: Environment = 0;

/// Environments by number, each with the value of its innermost variable and the environment round it.
#[derive(Default)]
pub struct Environments {
    bound: Vec<(Value, Environment)>,
    numbers: HashMap<(Value, Environment), Environment, Quick>,
}

impl Environments {
    fn bind(&mut self, value: Value, outer: Environment) -> Environment {
        let bound = (value, outer);
        if let Some(&number) = self.numbers.get(&bound) {
            return number;
        }
        self.bound.push(bound.clone());
        let number = self.bound.len() as Environment;
        self.numbers.insert(bound, number);
        number
    }

    /// The value of the innermost variable, and the environment round it.
    pub fn innermost(&self, environment: Environment) -> (Value, Environment) {
        self.bound[environment as usize - 1].clone()
    }

    fn outer(&self, environment: Environment) -> Environment {
        self.bound[environment as usize - 1].1
    }
}

/// What evaluation reads, and what can be needed.
#[derive(Clone, Copy, Debug, PartialEq, Eq, Hash)]
pub enum Item {
    Name(usize),
    Place(usize, Environment),
}

/// One state as it is evaluated. What was found is kept for the state. An answer is missing (`None`) where evaluation
/// comes back to a name that it is in, and wherever such an answer is needed.
pub struct View<'a> {
    pub state: &'a State,
    environments: &'a RefCell<Environments>,
    values: HashMap<Item, Option<Outcome>, Quick>,
    depths: HashMap<Item, Option<u32>, Quick>,
}

impl<'a> View<'a> {
    pub fn new(state: &'a State, environments: &'a RefCell<Environments>) -> View<'a> {
        View { state, environments, values: HashMap::default(), depths: HashMap::default() }
    }

    fn within(&self, value: &Value, outer: Environment) -> Environment {
        self.environments.borrow_mut().bind(value.clone(), outer)
    }

    // What things are worth.

    pub fn name(&mut self, name: usize) -> Option<Outcome> {
        if let Some(known) = self.values.get(&Item::Name(name)) {
            return known.clone();
        }
        self.values.insert(Item::Name(name), None);
        let state = self.state;
        let outcome = match &state.declared[name].body {
            Body::Var => Some(Outcome::Value(state.values[&name].clone())),
            Body::Let(formula) => self.place(*formula, NOWHERE),
            Body::Freeze(child, _) => match state.frozen.get(&name) {
                Some(value) => Some(Outcome::Value(value.clone())),
                None => self.place(*child, NOWHERE),
            },
            Body::Expert(function, first) => self.expert(name, function, first),
            Body::Grab { bind, left } => self.grab(name, *bind, left),
            Body::Alias => self.name(state.target(name)),
        };
        self.values.insert(Item::Name(name), outcome.clone());
        outcome
    }

    fn expert(&mut self, expert: usize, function: &Function, first: &Value) -> Option<Outcome> {
        let state = self.state;
        let outcomes: Option<Vec<Outcome>> = state.lists[&expert].iter().map(|&name| self.name(name)).collect();
        let mut sum = first.clone();
        for outcome in outcomes? {
            match outcome {
                Outcome::Value(element) => sum = (function.meaning)(&[sum, element]),
                Outcome::Invalid => return Some(Outcome::Invalid),
            }
        }
        Some(Outcome::Value(sum))
    }

    fn grab(&mut self, grab: usize, bind: usize, value: &Value) -> Option<Outcome> {
        let (left, body) = self.state.bind(bind).expect("a grab is of a bind");
        if !self.state.live.contains(&grab) {
            return Some(Outcome::Invalid);
        }
        match self.place(left, NOWHERE)? {
            Outcome::Value(now) if now == *value => self.place(body, self.within(value, NOWHERE)),
            _ => Some(Outcome::Invalid),
        }
    }

    pub fn place(&mut self, place: usize, environment: Environment) -> Option<Outcome> {
        let state = self.state;
        match &state.places[place].kind {
            Kind::Literal(value) => return Some(Outcome::Value(value.clone())),
            Kind::Variable { outward, .. } => return Some(Outcome::Value(self.variable(*outward, environment))),
            Kind::Name(name) => return self.name(*name),
            kind => {
                if let Some(value) = kind.by_the_clock(state.now) {
                    return Some(Outcome::Value(value));
                }
            }
        }
        let item = Item::Place(place, environment);
        if let Some(known) = self.values.get(&item) {
            return known.clone();
        }
        let outcome = self.formula(place, environment);
        self.values.insert(item, outcome.clone());
        outcome
    }

    fn formula(&mut self, place: usize, environment: Environment) -> Option<Outcome> {
        let state = self.state;
        match &state.places[place].kind {
            Kind::Application(function, kids) => Some(match self.arguments(kids, environment)? {
                Outcome::Value(arguments) => Outcome::Value((function.meaning)(&arguments)),
                Outcome::Invalid => Outcome::Invalid,
            }),
            Kind::Fold(function, first, kids) => Some(match self.arguments(kids, environment)? {
                Outcome::Value(elements) => {
                    let step = |sum, element| (function.meaning)(&[sum, element]);
                    Outcome::Value(elements.into_iter().fold(first.clone(), step))
                }
                Outcome::Invalid => Outcome::Invalid,
            }),
            Kind::If { test, yes, no } => match self.place(*test, environment)? {
                Outcome::Value(test) => self.place(if test == Value::Bool(true) { *yes } else { *no }, environment),
                Outcome::Invalid => Some(Outcome::Invalid),
            },
            Kind::Join(kid) => match self.place(*kid, environment)? {
                Outcome::Value(Value::Node(name)) => self.name(name),
                _ => Some(Outcome::Invalid),
            },
            Kind::Bind { left, body } => match self.place(*left, environment)? {
                Outcome::Value(value) => self.place(*body, self.within(&value, environment)),
                Outcome::Invalid => Some(Outcome::Invalid),
            },
            _ => unreachable!("evaluated where they stand"),
        }
    }

    fn variable(&self, outward: usize, environment: Environment) -> Value {
        let environments = self.environments.borrow();
        let environment = (0..outward).fold(environment, |inner, _| environments.outer(inner));
        environments.innermost(environment).0
    }

    /// The values of all of them; Invalid where one is, and missing where one is missing.
    fn arguments(&mut self, kids: &[usize], environment: Environment) -> Option<Outcome<Vec<Value>>> {
        let outcomes: Option<Vec<Outcome>> = kids.iter().map(|&kid| self.place(kid, environment)).collect();
        let mut values = Vec::with_capacity(kids.len());
        for outcome in outcomes? {
            match outcome {
                Outcome::Value(value) => values.push(value),
                Outcome::Invalid => return Some(Outcome::Invalid),
            }
        }
        Some(Outcome::Value(values))
    }

    // What things read.

    /// The items that evaluating this one uses directly.
    pub fn reads(&mut self, item: Item) -> Vec<Item> {
        match item {
            Item::Name(name) => self.name_reads(name),
            Item::Place(place, environment) => {
                let mut found = self.place_reads(place, environment);
                if let Some(bind) = self.state.places[place].within {
                    let outer = self.environments.borrow().outer(environment);
                    found.push(Item::Place(self.left(bind), outer));
                }
                found
            }
        }
    }

    fn name_reads(&mut self, name: usize) -> Vec<Item> {
        let state = self.state;
        match &state.declared[name].body {
            Body::Var => Vec::new(),
            Body::Let(formula) => vec![Item::Place(*formula, NOWHERE)],
            Body::Freeze(..) if state.frozen.contains_key(&name) => Vec::new(),
            Body::Freeze(child, _) => vec![Item::Place(*child, NOWHERE)],
            Body::Expert(..) => state.lists[&name].iter().map(|&listed| Item::Name(listed)).collect(),
            Body::Grab { .. } if !state.live.contains(&name) => Vec::new(),
            Body::Grab { bind, left: value } => {
                let (left, body) = state.bind(*bind).expect("a grab is of a bind");
                let mut found = vec![Item::Place(left, NOWHERE)];
                if self.place(left, NOWHERE) == Some(Outcome::Value(value.clone())) {
                    found.push(Item::Place(body, self.within(value, NOWHERE)));
                }
                found
            }
            Body::Alias => vec![Item::Name(state.target(name))],
        }
    }

    fn place_reads(&mut self, place: usize, environment: Environment) -> Vec<Item> {
        let state = self.state;
        let here = |place: &usize| Item::Place(*place, environment);
        match &state.places[place].kind {
            Kind::Name(name) => vec![Item::Name(*name)],
            Kind::Application(_, kids) | Kind::Fold(_, _, kids) => kids.iter().map(here).collect(),
            Kind::If { test, yes, no } => {
                let mut found = vec![here(test)];
                if let Some(Outcome::Value(value)) = self.place(*test, environment) {
                    found.push(here(if value == Value::Bool(true) { yes } else { no }));
                }
                found
            }
            Kind::Join(kid) => {
                let mut found = vec![here(kid)];
                if let Some(Outcome::Value(Value::Node(name))) = self.place(*kid, environment) {
                    found.push(Item::Name(name));
                }
                found
            }
            Kind::Bind { left, body } => {
                let mut found = vec![here(left)];
                if let Some(Outcome::Value(value)) = self.place(*left, environment) {
                    found.push(Item::Place(*body, self.within(&value, environment)));
                }
                found
            }
            _ => Vec::new(),
        }
    }

    /// Everything that is reached from these by reading, themselves too.
    pub fn reached(&mut self, from: impl IntoIterator<Item = Item>) -> Items {
        let mut waiting: Vec<Item> = from.into_iter().collect();
        let mut found: Items = waiting.iter().copied().collect();
        while let Some(item) = waiting.pop() {
            waiting.extend(self.reads(item).into_iter().filter(|read| found.insert(*read)));
        }
        found
    }

    /// The names that a name reads, with no name between.
    pub fn names_read(&mut self, name: usize) -> BTreeSet<usize> {
        let mut waiting = self.reads(Item::Name(name));
        let mut seen: Items = waiting.iter().copied().collect();
        let mut found = BTreeSet::new();
        while let Some(item) = waiting.pop() {
            match item {
                Item::Name(read) => {
                    found.insert(read);
                }
                Item::Place(..) => waiting.extend(self.reads(item).into_iter().filter(|read| seen.insert(*read))),
            }
        }
        found
    }

    /// Whether the lefts of the binds round an item give the values that it stands for.
    pub fn still_stands(&mut self, item: Item) -> bool {
        let Item::Place(mut place, mut environment) = item else { return true };
        while let Some(bind) = self.state.places[place].within {
            let (value, outer) = self.environments.borrow().innermost(environment);
            if self.place(self.left(bind), outer) != Some(Outcome::Value(value)) {
                return false;
            }
            (place, environment) = (bind, outer);
        }
        true
    }

    fn left(&self, bind: usize) -> usize {
        match self.state.places[bind].kind {
            Kind::Bind { left, .. } => left,
            _ => unreachable!("a body stands in a bind"),
        }
    }

    // How deep things stand.

    pub fn depth(&mut self, item: Item) -> Option<u32> {
        match item {
            Item::Name(name) => self.name_depth(name),
            Item::Place(place, environment) => self.place_depth(place, environment),
        }
    }

    fn name_depth(&mut self, name: usize) -> Option<u32> {
        if let Some(known) = self.depths.get(&Item::Name(name)) {
            return *known;
        }
        self.depths.insert(Item::Name(name), None);
        let state = self.state;
        let depth = match &state.declared[name].body {
            Body::Var => Some(0),
            Body::Let(formula) => self.place_depth(*formula, NOWHERE),
            Body::Freeze(..) if state.frozen.contains_key(&name) => Some(0),
            Body::Freeze(child, _) => self.place_depth(*child, NOWHERE).map(|depth| depth + 1),
            Body::Expert(..) => {
                let depths: Option<Vec<u32>> = state.lists[&name].iter().map(|&listed| self.name_depth(listed)).collect();
                depths.map(|depths| depths.into_iter().max().map_or(0, |depth| depth + 1))
            }
            Body::Grab { bind, left } => self.grab_depth(name, *bind, left),
            Body::Alias => self.name_depth(state.target(name)),
        };
        self.depths.insert(Item::Name(name), depth);
        depth
    }

    fn grab_depth(&mut self, grab: usize, bind: usize, value: &Value) -> Option<u32> {
        let (left, body) = self.state.bind(bind).expect("a grab is of a bind");
        if !self.state.live.contains(&grab) {
            return Some(0);
        }
        match self.place(left, NOWHERE)? {
            Outcome::Value(now) if now == *value => self.place_depth(body, self.within(value, NOWHERE)),
            _ => Some(1 + self.change(0, left, NOWHERE)?),
        }
    }

    fn place_depth(&mut self, place: usize, environment: Environment) -> Option<u32> {
        if let Kind::Name(name) = self.state.places[place].kind {
            return self.name_depth(name);
        }
        let item = Item::Place(place, environment);
        if let Some(known) = self.depths.get(&item) {
            return *known;
        }
        let depth = self.formula_depth(place, environment);
        self.depths.insert(item, depth);
        depth
    }

    /// How deep nothing of a place can stand less: 1 more than the change of the innermost bind round it.
    fn floor(&mut self, place: usize, environment: Environment) -> Option<u32> {
        match self.state.places[place].within {
            None => Some(0),
            Some(bind) => {
                let outer = self.environments.borrow().outer(environment);
                Some(1 + self.bind_change(bind, outer)?)
            }
        }
    }

    fn bind_change(&mut self, bind: usize, environment: Environment) -> Option<u32> {
        let floor = self.floor(bind, environment)?;
        self.change(floor, self.left(bind), environment)
    }

    /// The depth of a change, which follows a left, a test or a child.
    fn change(&mut self, floor: u32, follows: usize, environment: Environment) -> Option<u32> {
        Some(floor.max(1 + self.place_depth(follows, environment)?))
    }

    fn formula_depth(&mut self, place: usize, environment: Environment) -> Option<u32> {
        let state = self.state;
        let floor = self.floor(place, environment)?;
        let (follows, right) = match &state.places[place].kind {
            Kind::Literal(_) | Kind::At(_) | Kind::Steps(..) | Kind::Now | Kind::Every { .. } => return Some(floor),
            Kind::Variable { bind, outward } => {
                let outer = {
                    let environments = self.environments.borrow();
                    (0..=*outward).fold(environment, |inner, _| environments.outer(inner))
                };
                return Some(1 + self.bind_change(*bind, outer)?);
            }
            Kind::Name(_) => unreachable!("a name has its own depth"),
            Kind::Application(_, kids) | Kind::Fold(_, _, kids) => {
                let mut depth = floor;
                for kid in kids {
                    depth = depth.max(1 + self.place_depth(*kid, environment)?);
                }
                return Some(depth);
            }
            Kind::If { test, yes, no } => (
                *test,
                match self.place(*test, environment)? {
                    Outcome::Value(value) => {
                        Some(Item::Place(if value == Value::Bool(true) { *yes } else { *no }, environment))
                    }
                    Outcome::Invalid => None,
                },
            ),
            Kind::Join(kid) => (
                *kid,
                match self.place(*kid, environment)? {
                    Outcome::Value(Value::Node(name)) => Some(Item::Name(name)),
                    _ => None,
                },
            ),
            Kind::Bind { left, body } => (
                *left,
                match self.place(*left, environment)? {
                    Outcome::Value(value) => Some(Item::Place(*body, self.within(&value, environment))),
                    Outcome::Invalid => None,
                },
            ),
        };
        let change = self.change(floor, follows, environment)?;
        match right {
            Some(right) => Some(1 + change.max(self.depth(right)?)),
            None => Some(1 + change),
        }
    }
}
