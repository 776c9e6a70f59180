//! What a session has of freezes and of experts with their lists.

use super::{Step, Writer, line};
use crate::state::{Body, State};
use crate::values::{BOOL, Base, FUNCTIONS, INT, Type};

/// How many links an expert has at most.
const MOST_LINKS: usize = 4096;

impl Writer {
    /// A freeze, observed or not, of something that may come to hold, and mostly a later read of it.
    pub(super) fn freeze(&mut self, state: &State) {
        let ty = *self.chance.pick(&[INT, INT, BOOL]);
        let (name, predicate) = (self.fresh("f"), if ty == INT { "pos" } else { "not" });
        let depth = self.chance.between(1, 3);
        let child = match self.chance.below(4) {
            0 => self.name(state, ty).expect("each of these types has a name"),
            1 if self.timed => self.timed(state, ty),
            _ => self.formula(state, ty, depth, &mut Vec::new()),
        };
        self.plan([line(format!("let {name} freeze {child} when {predicate}"))]);
        if self.chance.percent(60) {
            self.observe_name(&name);
        }
        if self.chance.percent(50) {
            let reader = self.fresh("a");
            let read = if ty == INT { format!("sub({name}, x0)") } else { format!("if {name} then x0 else 7") };
            self.plan([line(format!("let {reader} {read}"))]);
            self.observe_name(&reader);
        }
        self.plan([Step::Stabilize, Step::Shows]);
        if ty == INT && self.chance.percent(50) {
            self.set(state);
            self.plan([Step::Stabilize, Step::Shows]);
        }
    }

    /// A freeze over a reference that comes to name the freeze: a circle, unless it keeps a value by then.
    pub(super) fn frozen_circle(&mut self) {
        let (reference, name) = (self.fresh("h"), self.fresh("f"));
        let (zero, one) = (self.fresh("x"), *self.chance.pick(&["0", "-1", "1", "5"]));
        self.plan([
            line(format!("var {zero} int {one}")),
            line(format!("var {reference} node int &{zero}")),
            line(format!("let {name} freeze join({reference}) when pos")),
        ]);
        if self.chance.percent(60) {
            self.observe_name(&name);
        }
        self.plan([Step::Stabilize, Step::Shows, line(format!("set {reference} &{name}"))]);
        if self.chance.percent(30) {
            self.plan([line(format!("set {reference} &{zero}")), line(format!("set {zero} 3"))]);
        }
        self.plan([Step::Stabilize, Step::Shows]);
    }

    fn expert(&mut self, state: &State) -> Option<(usize, Type)> {
        let experts: Vec<(usize, Type)> = state
            .lists
            .keys()
            .map(|&expert| match state.declared[expert].body {
                Body::Expert(function, _) => (expert, Type::Base(function.folds().expect("its function folds"))),
                _ => unreachable!("an expert has a list"),
            })
            .collect();
        (!experts.is_empty()).then(|| *self.chance.pick(&experts))
    }

    /// An expert with a few links, mostly observed.
    pub(super) fn new_expert(&mut self, state: &State) {
        let folding: Vec<_> = FUNCTIONS.iter().filter(|function| function.folds().is_some()).collect();
        let function = *self.chance.pick(&folding);
        let ty = Type::Base(function.gives);
        let (name, first) = (self.fresh("e"), self.literal(state, ty));
        self.plan([line(format!("expert {name} fold {} from {first}", function.name))]);
        let element = Type::Base(function.folds().expect("it folds"));
        for _ in 0..self.chance.below(4) {
            if let Some(listed) = self.name(state, element) {
                self.plan([line(format!("link {name} {listed}"))]);
            }
        }
        if self.chance.percent(70) {
            self.observe_name(&name);
        }
        if ty == INT && self.chance.percent(40) {
            let reader = self.fresh("a");
            self.plan([line(format!("let {reader} neg({name})"))]);
            self.observe_name(&reader);
            // (which closes a circle, until the link is taken off)
            if element == INT && self.chance.percent(30) {
                self.plan([line(format!("link {name} {reader}"))]);
                if self.chance.percent(30) {
                    self.plan([Step::Stabilize, Step::Shows]);
                }
                self.plan([line(format!("unlink {name} {reader}"))]);
            }
        }
    }

    /// The lists of experts change: links come, also such to later names, and go, and some experts are made stale.
    pub(super) fn relist(&mut self, state: &State) {
        for _ in 0..self.chance.between(1, 4) {
            let Some((expert, element)) = self.expert(state) else { return };
            let name = state.declared[expert].name.clone();
            let text = match self.chance.below(10) {
                0..=4 => match self.name(state, element) {
                    Some(listed) => format!("link {name} {listed}"),
                    None => return,
                },
                5..=7 if !state.lists[&expert].is_empty() => {
                    let listed = *self.chance.pick(&state.lists[&expert]);
                    format!("unlink {name} {}", state.declared[listed].name)
                }
                8 => format!("unlink {name} {}", self.name(state, INT).expect("there is one")),
                _ => format!("stale {name}"),
            };
            self.plan([line(text)]);
        }
    }

    /// As many links as a list may have, and one more.
    pub(super) fn full_list(&mut self) {
        let name = self.fresh("e");
        self.plan([line(format!("expert {name} fold add from 0"))]);
        self.observe_name(&name);
        for _ in 0..=MOST_LINKS {
            self.plan([line(format!("link {name} x0"))]);
        }
        self.plan([Step::Stabilize, Step::Shows]);
        for text in ["unlink", "link", "link"] {
            self.plan([line(format!("{text} {name} x1"))]);
        }
        self.plan([line(format!("unlink {name} x0")), line(format!("link {name} x1")), Step::Stabilize, Step::Shows]);
    }

    /// Takes a link off an expert that is part of what blocks a stabilize, or may be.
    pub(super) fn unlinked(&mut self, state: &State) -> Option<String> {
        let (expert, _) = self.expert(state)?;
        let listed = state.lists[&expert].last()?;
        Some(format!("unlink {} {}", state.declared[expert].name, state.declared[*listed].name))
    }

    /// A line of these forms that is refused.
    pub(super) fn wrong_list(&mut self, state: &State, new: &str) -> String {
        let name = self.name(state, INT).expect("there is one");
        let Some((expert, _)) = self.expert(state) else { return format!("link {name} {name}") };
        let expert = state.declared[expert].name.clone();
        let text = self.name(state, Type::Base(Base::Text)).expect("there is one");
        match self.chance.below(16) {
            0 => format!("let {new} freeze {name} when not"),
            1 => format!("let {new} freeze {name} when add"),
            2 => format!("let {new} freeze {name} when big"),
            3 => format!("let {new} neg(freeze {name} when pos)"),
            4 => format!("let {new} freeze freeze {name} when pos when pos"),
            5 => format!("let {new} freeze every 5s when pos"),
            6 => format!("let {new} freeze {name}"),
            7 => format!("expert {new} fold add from true"),
            8 => format!("expert {new} fold neg from 1"),
            9 => format!("expert {new} fold pow from 1"),
            10 => format!("expert {name} fold add from 1"),
            11 => format!("link {expert} {new}"),
            12 => format!("link {name} {expert}"),
            13 => format!("link {expert} {text}"),
            14 => format!("unlink {expert} {text}"),
            _ => format!("stale {name}"),
        }
    }
}
