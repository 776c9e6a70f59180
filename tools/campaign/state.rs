//! What a script has come to: declarations, variables, observers, and what binds were built for.

use crate::values::{Function, Outcome, Type, Value};
use std::collections::{BTreeMap, BTreeSet};
use std::rc::Rc;

/// A declared name. `target` is its own position, or that of the name whose node it is.
#[derive(PartialEq, Eq)]
pub struct Declared {
    pub name: String,
    pub ty: Type,
    pub target: usize,
    pub body: Body,
}

#[derive(PartialEq, Eq)]
pub enum Body {
    Var,
    /// A formula, by its outermost place.
    Let(usize),
    /// The outermost place of what it follows, and the predicate.
    Freeze(usize, &'static Function),
    /// A fold of a list from a first value on.
    Expert(&'static Function, Value),
    /// The right side that a bind had for this left value.
    Grab {
        bind: usize,
        left: Value,
    },
    /// Another name for its target.
    Alias,
}

/// A place of a formula. Places are numbered through all formulas of a script.
#[derive(PartialEq, Eq)]
pub struct Place {
    pub kind: Kind,
    pub ty: Type,
    /// The declaration whose formula it stands in.
    pub owner: usize,
    /// The innermost bind in whose body it stands.
    pub within: Option<usize>,
}

#[derive(PartialEq, Eq)]
pub enum Kind {
    Literal(Value),
    /// The variable of a bind round it; `outward` is how many binds stand between.
    Variable {
        bind: usize,
        outward: usize,
    },
    Name(usize),
    Application(&'static Function, Vec<usize>),
    Fold(&'static Function, Value, Vec<usize>),
    If {
        test: usize,
        yes: usize,
        no: usize,
    },
    Join(usize),
    Bind {
        left: usize,
        body: usize,
    },
    At(i64),
    /// The first value, and the later ones with their times.
    Steps(Value, Vec<(i64, Value)>),
    Now,
    Every {
        base: i64,
        span: i64,
    },
}

impl Kind {
    /// What a place shows that reads the clock alone.
    pub fn by_the_clock(&self, now: i64) -> Option<Value> {
        Some(match self {
            Kind::At(time) => Value::Bool(now >= *time),
            Kind::Steps(first, steps) => {
                steps.iter().rev().find(|step| step.0 <= now).map_or(first, |step| &step.1).clone()
            }
            Kind::Now => Value::Int(now),
            Kind::Every { base, span } => Value::Int((now - base) / span),
            _ => return None,
        })
    }
}

/// Whether an observer is watched, and what was told of it last.
#[derive(Clone, PartialEq, Eq)]
pub enum Watch {
    Off,
    /// Watched, and nothing was told yet.
    Fresh,
    Told(Outcome),
}

/// The observers in use, in the order in which they were made.
#[derive(Clone, PartialEq, Eq)]
pub struct Observer {
    pub name: String,
    pub target: usize,
    pub shown: Option<Outcome>,
    pub watch: Watch,
}

/// `Rc` keeps a copy of a state cheap: what stands behind it never changes.
#[derive(Clone, Default, PartialEq, Eq)]
pub struct State {
    pub declared: Vec<Rc<Declared>>,
    pub places: Vec<Rc<Place>>,
    /// How many places count against the limit.
    pub counted: usize,
    pub values: BTreeMap<usize, Value>,
    /// What freezes keep.
    pub frozen: BTreeMap<usize, Value>,
    /// What experts list, by target.
    pub lists: BTreeMap<usize, Vec<usize>>,
    /// The clock, in nanoseconds.
    pub now: i64,
    /// The outcomes that each bind of a `let` may have been built for last, `None` for never. There is more than one
    /// where nothing that was printed since tells them apart.
    pub built: BTreeMap<usize, BTreeSet<Option<Outcome>>>,
    /// The grabs that live and are their own targets.
    pub live: BTreeSet<usize>,
    pub observers: Vec<Observer>,
    pub stabilizes: u64,
    /// The number that a stabilize was refused with.
    pub broken: Option<u8>,
}

impl State {
    pub fn find(&self, name: &str) -> Option<usize> {
        self.declared.iter().position(|declared| declared.name == name)
    }

    pub fn observer(&self, name: &str) -> Option<usize> {
        self.observers.iter().position(|observer| observer.name == name)
    }

    /// The declaration that a name is another name for, or is itself.
    pub fn target(&self, position: usize) -> usize {
        self.declared[position].target
    }

    /// The left side and the body of a `let` whose formula is a bind.
    pub fn bind(&self, position: usize) -> Option<(usize, usize)> {
        let Body::Let(formula) = self.declared[position].body else { return None };
        match self.places[formula].kind {
            Kind::Bind { left, body } => Some((left, body)),
            _ => None,
        }
    }

    pub fn live_grab(&self, of: usize) -> Option<usize> {
        self.live
            .iter()
            .copied()
            .find(|&grab| matches!(self.declared[grab].body, Body::Grab { bind, .. } if bind == of))
    }

    /// Says what a bind was built for. Where that is new, its grab dies.
    pub fn build(&mut self, bind: usize, built: BTreeSet<Option<Outcome>>) {
        if self.built[&bind] != built {
            self.built.insert(bind, built);
            if let Some(grab) = self.live_grab(bind) {
                self.live.remove(&grab);
            }
        }
    }

    /// The freezes that keep no value, each with what it follows and its predicate.
    pub fn unfrozen(&self) -> impl Iterator<Item = (usize, usize, &'static Function)> + '_ {
        self.declared.iter().enumerate().filter_map(|(name, declared)| match declared.body {
            Body::Freeze(child, predicate) if !self.frozen.contains_key(&name) => Some((name, child, predicate)),
            _ => None,
        })
    }

    /// Where need begins: the targets of the observers in use, and the freezes that keep no value.
    pub fn roots(&self) -> BTreeSet<usize> {
        let observed = self.observers.iter().map(|observer| observer.target);
        observed.chain(self.unfrozen().map(|freeze| freeze.0)).collect()
    }

    pub fn print_outcome(&self, outcome: &Outcome, out: &mut Vec<u8>) {
        match outcome {
            Outcome::Invalid => out.extend_from_slice(b"invalid"),
            Outcome::Value(value) => self.print(value, out),
        }
    }

    pub fn print(&self, value: &Value, out: &mut Vec<u8>) {
        match value {
            Value::Int(number) => out.extend_from_slice(number.to_string().as_bytes()),
            Value::Bool(truth) => out.extend_from_slice(truth.to_string().as_bytes()),
            Value::Text(text) => crate::values::quote(text, out),
            Value::Node(target) => {
                out.push(b'&');
                out.extend_from_slice(self.declared[*target].name.as_bytes());
            }
        }
    }
}
