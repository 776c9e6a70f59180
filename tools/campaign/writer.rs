//! Writes the lines of one session at random, one after the other, by what the judge knows of the session.

mod clock;
mod lists;

use crate::judge::{Judge, Outlook};
use crate::state::{Kind, State};
use crate::values::{BOOL, Base, FUNCTIONS, INT, Outcome, TEXT, Type, Value, quote};
use std::collections::VecDeque;

const MOST_READINGS: usize = 16;
const MOST_MENDS: u32 = 12;
/// How many negations one line nests; a line may have 64 levels.
const ONE_LINE: usize = 58;

/// Numbers that look random: the same for the same seed.
pub struct Chance(u64);

impl Chance {
    pub fn new(seed: u64) -> Chance {
        Chance(seed.wrapping_mul(0x9e37_79b9_7f4a_7c15) ^ 0x2545_f491_4f6c_dd1d)
    }

    fn draw(&mut self) -> u64 {
        self.0 = self.0.wrapping_add(0x9e37_79b9_7f4a_7c15);
        let mixed = (self.0 ^ (self.0 >> 30)).wrapping_mul(0xbf58_476d_1ce4_e5b9);
        let mixed = (mixed ^ (mixed >> 27)).wrapping_mul(0x94d0_49bb_1331_11eb);
        mixed ^ (mixed >> 31)
    }

    pub fn below(&mut self, bound: usize) -> usize {
        (self.draw() % bound as u64) as usize
    }

    fn between(&mut self, least: usize, greatest: usize) -> usize {
        least + self.below(greatest - least + 1)
    }

    fn percent(&mut self, chance: usize) -> bool {
        self.below(100) < chance
    }

    fn pick<'a, T>(&mut self, of: &'a [T]) -> &'a T {
        &of[self.below(of.len())]
    }
}

enum Step {
    Line(String),
    /// A stabilize, before which a change is taken back where it would be refused.
    Stabilize,
    /// What observers show.
    Shows,
}

pub struct Writer {
    chance: Chance,
    /// How many names the session is to declare, and how many rounds it has.
    size: usize,
    rounds: usize,
    /// How many lines are still written once a stabilize was refused.
    rest: usize,
    planned: VecDeque<Step>,
    names: usize,
    observers: usize,
    mends: u32,
    /// Whether a change by which a stabilize will be refused is left at times.
    leaves_blocked: bool,
    /// Whether the session has chains near the greatest depth, of which these are the last points.
    chains: bool,
    tops: Vec<String>,
    /// Whether the session reads the clock and moves it.
    timed: bool,
    /// Whether it has freezes and experts, and whether one of these is filled with links.
    listed: bool,
    fills: bool,
    /// The variables that the last stabilize needed.
    needed: Vec<usize>,
}

fn line(text: impl Into<String>) -> Step {
    Step::Line(text.into())
}

fn nested(count: usize, inner: &str) -> String {
    format!("{}{inner}{}", "neg(".repeat(count), ")".repeat(count))
}

impl Writer {
    /// Writes a session of up to `size` names, at times with a stabilize that is refused.
    pub fn new(seed: u64, size: usize) -> Writer {
        let mut chance = Chance::new(seed);
        let size = chance.between(size.min(12), size);
        let rounds = chance.between(size / 2, 4 * size);
        let chains = chance.percent(30);
        let timed = chance.percent(75);
        let listed = chance.percent(70);
        let fills = listed && chance.percent(1);
        let rest = chance.below(4);
        let (planned, tops, needed) = (VecDeque::new(), Vec::new(), Vec::new());
        Writer {
            chance,
            size,
            rounds,
            rest,
            planned,
            names: 0,
            observers: 0,
            mends: 0,
            leaves_blocked: true,
            chains,
            tops,
            timed,
            listed,
            fills,
            needed,
        }
    }

    /// Writes a session of this many rounds, and takes back what would have a stabilize refused.
    pub fn of_rounds(seed: u64, size: usize, rounds: usize) -> Writer {
        Writer { rounds, leaves_blocked: false, ..Writer::new(seed, size) }
    }

    /// The next line, or `None` where the session ends.
    pub fn next(&mut self, judge: &mut Judge) -> Option<String> {
        if judge.state().declared.is_empty() {
            self.begin();
        }
        if judge.state().broken.is_some() {
            return self.broken_line(judge.state());
        }
        loop {
            match self.planned.pop_front() {
                Some(Step::Line(text)) => return Some(text),
                Some(Step::Shows) => self.show(judge.state()),
                Some(Step::Stabilize) => {
                    let outlook = judge.outlook();
                    let leaves = self.leaves_blocked && self.chance.percent(8);
                    if !outlook.blocked || self.mends == MOST_MENDS || leaves {
                        self.mends = 0;
                        self.needed.clone_from(&outlook.variables);
                        return Some("stabilize".to_owned());
                    }
                    self.mends += 1;
                    self.planned.push_front(Step::Stabilize);
                    return Some(self.mend(judge.state(), &outlook));
                }
                None if self.rounds == 0 || judge.readings() > MOST_READINGS => return None,
                None => {
                    self.rounds -= 1;
                    self.round(judge.state());
                }
            }
        }
    }

    /// Lines to a session that a refused stabilize has broken.
    fn broken_line(&mut self, state: &State) -> Option<String> {
        self.rest = self.rest.checked_sub(1)?;
        Some(match self.chance.below(4) {
            0 => "stabilize".to_owned(),
            1 => format!("show {}", self.observer(state).unwrap_or("o0".to_owned())),
            2 => format!("var {} int 1", self.fresh("x")),
            _ => format!("set x0 {}", self.number()),
        })
    }

    // Names.

    fn fresh(&mut self, kind: &str) -> String {
        self.names += 1;
        format!("{kind}{}", self.names - 1)
    }

    /// A name of the type that is declared; later ones are taken more often.
    fn name(&mut self, state: &State, ty: Type) -> Option<String> {
        let names: Vec<&str> =
            state.declared.iter().filter(|found| found.ty == ty).map(|found| found.name.as_str()).collect();
        let late = if self.chance.percent(50) { names.len().saturating_sub(8) } else { 0 };
        (!names.is_empty()).then(|| (*self.chance.pick(&names[late..])).to_owned())
    }

    fn variable(&mut self, state: &State, ty: Type) -> Option<String> {
        let of_type: Vec<usize> =
            state.values.keys().copied().filter(|variable| state.declared[*variable].ty == ty).collect();
        let needed: Vec<usize> = of_type.iter().copied().filter(|variable| self.needed.contains(variable)).collect();
        let from = if needed.is_empty() || self.chance.percent(20) { of_type } else { needed };
        (!from.is_empty()).then(|| state.declared[*self.chance.pick(&from)].name.clone())
    }

    fn observer(&mut self, state: &State) -> Option<String> {
        (!state.observers.is_empty()).then(|| self.chance.pick(&state.observers).name.clone())
    }

    /// A name that stands for a bind, more often one that was built and has no live grab yet.
    fn bind(&mut self, state: &State) -> Option<String> {
        let binds: Vec<usize> = state.built.keys().copied().collect();
        let built = |bind: &usize| state.built[bind].iter().any(|built| matches!(built, Some(Outcome::Value(_))));
        let ready: Vec<usize> =
            binds.iter().copied().filter(|bind| built(bind) && state.live_grab(*bind).is_none()).collect();
        let from = if ready.is_empty() || self.chance.percent(15) { binds } else { ready };
        (!from.is_empty()).then(|| state.declared[*self.chance.pick(&from)].name.clone())
    }

    // Literals and formulas.

    fn number(&mut self) -> i64 {
        match self.chance.below(40) {
            0 => i64::MIN,
            1 => i64::MAX,
            2 => self.chance.draw() as i64,
            _ => self.chance.below(9) as i64 - 3,
        }
    }

    fn text(&mut self) -> String {
        let mut out = Vec::new();
        quote(self.chance.pick(&["", "a", "b c", "\"\\", "~# (x)", "1", "-2"]).as_bytes(), &mut out);
        String::from_utf8(out).expect("letters and signs")
    }

    fn literal(&mut self, state: &State, ty: Type) -> String {
        match ty {
            Type::Base(Base::Int) => self.number().to_string(),
            Type::Base(Base::Bool) => self.chance.percent(50).to_string(),
            Type::Base(Base::Text) => self.text(),
            Type::Node(base) if base == Base::Int && !self.tops.is_empty() && self.chance.percent(40) => {
                format!("&{}", self.chance.pick(&self.tops))
            }
            Type::Node(base) => {
                format!("&{}", self.name(state, Type::Base(base)).expect("each base type has a variable"))
            }
        }
    }

    fn any_type(&mut self) -> Type {
        *self.chance.pick(&[INT, INT, INT, INT, BOOL, BOOL, TEXT, Type::Node(Base::Int), Type::Node(Base::Bool)])
    }

    /// A formula of the type, in which the variables of binds stand as they are listed, the innermost last.
    fn formula(&mut self, state: &State, ty: Type, depth: usize, variables: &mut Vec<(String, Type)>) -> String {
        if depth == 0 || self.chance.percent(15) {
            return self.leaf(state, ty, variables);
        }
        if self.timed && self.chance.percent(15) {
            return self.timed(state, ty);
        }
        match self.chance.below(10) {
            0 => {
                let test = self.formula(state, BOOL, depth - 1, variables);
                let yes = self.formula(state, ty, depth - 1, variables);
                format!("if {test} then {yes} else {}", self.formula(state, ty, depth - 1, variables))
            }
            1 | 2 => self.bind_formula(state, ty, depth, variables),
            3 => match ty {
                Type::Base(base) => format!("join({})", self.formula(state, Type::Node(base), depth - 1, variables)),
                Type::Node(_) => self.leaf(state, ty, variables),
            },
            4 => self.fold(state, ty, depth, variables),
            _ => self.application(state, ty, depth, variables),
        }
    }

    fn leaf(&mut self, state: &State, ty: Type, variables: &[(String, Type)]) -> String {
        let of_type: Vec<&str> =
            variables.iter().filter(|variable| variable.1 == ty).map(|variable| variable.0.as_str()).collect();
        if !of_type.is_empty() && self.chance.percent(60) {
            return (*self.chance.pick(&of_type)).to_owned();
        }
        match self.name(state, ty) {
            // (a variable of the same spelling, or of another type, hides the name)
            Some(name) if self.chance.percent(80) && !variables.iter().any(|variable| variable.0 == name) => name,
            _ if self.timed && self.chance.percent(40) => self.timed(state, ty),
            _ => self.literal(state, ty),
        }
    }

    fn bind_formula(&mut self, state: &State, ty: Type, depth: usize, variables: &mut Vec<(String, Type)>) -> String {
        let left_type = self.any_type();
        let left = self.formula(state, left_type, depth - 1, variables);
        let name = if self.chance.percent(5) { "x0".to_owned() } else { format!("v{}", variables.len()) };
        variables.push((name.clone(), left_type));
        let body = self.formula(state, ty, depth - 1, variables);
        variables.pop();
        format!("bind {name} = {left} in {body}")
    }

    fn fold(&mut self, state: &State, ty: Type, depth: usize, variables: &mut Vec<(String, Type)>) -> String {
        let folding: Vec<_> = FUNCTIONS
            .iter()
            .filter(|function| Type::Base(function.gives) == ty && function.folds().is_some())
            .collect();
        if folding.is_empty() {
            return self.leaf(state, ty, variables);
        }
        let function = *self.chance.pick(&folding);
        let element = Type::Base(function.folds().expect("it folds"));
        let first = self.literal(state, ty);
        let count = self.chance.below(5);
        let elements: Vec<String> = (0..count).map(|_| self.formula(state, element, depth - 1, variables)).collect();
        format!("fold {} from {first} [{}]", function.name, elements.join(", "))
    }

    fn application(&mut self, state: &State, ty: Type, depth: usize, variables: &mut Vec<(String, Type)>) -> String {
        let fitting: Vec<_> = FUNCTIONS.iter().filter(|function| Type::Base(function.gives) == ty).collect();
        if fitting.is_empty() {
            return self.leaf(state, ty, variables);
        }
        let function = *self.chance.pick(&fitting);
        let takes = function.takes.iter();
        let kids: Vec<String> =
            takes.map(|base| self.formula(state, Type::Base(*base), depth - 1, variables)).collect();
        format!("{}({})", function.name, kids.join(", "))
    }

    // What a session does.

    fn plan(&mut self, steps: impl IntoIterator<Item = Step>) {
        self.planned.extend(steps);
    }

    fn begin(&mut self) {
        if !self.planned.is_empty() {
            return;
        }
        for _ in 0..self.chance.between(2, 4) {
            let (name, number) = (self.fresh("x"), self.number());
            self.plan([line(format!("var {name} int {number}"))]);
        }
        let (truth, text, refers) = (self.fresh("c"), self.fresh("t"), self.fresh("k"));
        self.plan([
            line(format!("var {truth} bool true")),
            line(format!("var {text} text \"a\"")),
            line(format!("var {refers} node bool &{truth}")),
        ]);
        for _ in 0..self.chance.between(1, 3) {
            let name = self.fresh("h");
            self.plan([line(format!("var {name} node int &x0"))]);
        }
    }

    fn round(&mut self, state: &State) {
        let room = state.declared.len() < self.size;
        if self.listed {
            self.list(state, room);
        }
        match self.chance.below(100) {
            0..=19 if room => self.declare(state),
            20..=25 if self.chains && room => self.chain(state),
            26..=29 if room => self.circle(state),
            30..=34 if room => self.passed(state),
            35..=43 if room => self.grab(state),
            44..=49 if room => self.turned_away(state),
            50..=53 => self.exchange(state),
            54..=58 => self.wrong_line(state),
            72..=81 if self.timed && room => self.clocked(state),
            82..=84 if self.timed && room => self.clocked_circle(state),
            85..=88 if self.timed && room => self.stepped(state),
            89..=91 if self.timed => {
                let new = self.fresh("w");
                let text = self.wrong_time(state, &new);
                self.plan([line(text)]);
            }
            59..=66 => self.end_observer(state),
            67..=71 => self.observe(state),
            _ => {}
        }
        if state.observers.is_empty() || (state.observers.len() < 6 && self.chance.percent(15)) {
            self.observe(state);
        }
        if self.chance.percent(15) {
            let observer = self.observer(state).unwrap_or("o0".to_owned());
            self.plan([line(format!("watch {observer}"))]);
        }
        for _ in 0..*self.chance.pick(&[0, 1, 1, 1, 2, 3]) {
            self.set(state);
        }
        if self.timed && self.chance.percent(70) {
            self.move_clock(state);
        }
        self.plan([Step::Stabilize, Step::Shows]);
    }

    fn list(&mut self, state: &State, room: bool) {
        match self.chance.below(100) {
            0..=7 if room => self.freeze(state),
            8..=10 if room => self.frozen_circle(),
            11..=16 if room => self.new_expert(state),
            17..=40 => self.relist(state),
            41..=44 => {
                let new = self.fresh("w");
                let text = self.wrong_list(state, &new);
                self.plan([line(text)]);
            }
            45 if room && self.fills => {
                self.fills = false;
                self.full_list();
            }
            _ => {}
        }
    }

    fn show(&mut self, state: &State) {
        let all = self.chance.percent(70);
        for observer in &state.observers {
            if all || self.chance.percent(50) {
                self.planned.push_front(line(format!("show {}", observer.name)));
            }
        }
    }

    fn declare(&mut self, state: &State) {
        let ty = self.any_type();
        let depth = self.chance.between(1, 4);
        let name = self.fresh("a");
        let formula = match self.chance.below(10) {
            0 => self.name(state, ty).expect("each type has a name"),
            1..=4 => self.bind_formula(state, ty, depth, &mut Vec::new()),
            _ => self.formula(state, ty, depth, &mut Vec::new()),
        };
        self.plan([line(format!("let {name} {formula}"))]);
        if self.chance.percent(40) {
            self.observe_name(&name);
        }
    }

    fn observe_name(&mut self, name: &str) {
        self.observers += 1;
        let observer = if self.chance.percent(20) { "o0".to_owned() } else { format!("o{}", self.observers) };
        self.plan([line(format!("observe {observer} {name}"))]);
        if self.chance.percent(40) {
            self.plan([line(format!("watch {observer}"))]);
        }
    }

    fn observe(&mut self, state: &State) {
        let ty = self.any_type();
        if let Some(name) = self.name(state, ty) {
            self.observe_name(&name);
        }
    }

    /// Ends an observer, more often one of what is dead.
    fn end_observer(&mut self, state: &State) {
        let dead: Vec<_> = state.observers.iter().filter(|observer| observer.shown == Some(Outcome::Invalid)).collect();
        let dead =
            if dead.is_empty() || self.chance.percent(30) { None } else { Some(self.chance.pick(&dead).name.clone()) };
        if let Some(observer) = dead.or_else(|| self.observer(state)) {
            self.plan([line(format!("unobserve {observer}"))]);
            if self.chance.percent(30) {
                self.observe(state);
            }
        }
    }

    fn set(&mut self, state: &State) {
        let ty = *self.chance.pick(&[
            INT,
            INT,
            INT,
            BOOL,
            BOOL,
            TEXT,
            Type::Node(Base::Int),
            Type::Node(Base::Int),
            Type::Node(Base::Bool),
        ]);
        if let Some(name) = self.variable(state, ty) {
            let literal = self.literal(state, ty);
            self.plan([line(format!("set {name} {literal}"))]);
        }
    }

    /// Changes something that may be part of what blocks a stabilize.
    fn mend(&mut self, state: &State, outlook: &Outlook) -> String {
        let of_kind = |ty: Type| -> Vec<usize> {
            outlook.variables.iter().copied().filter(|variable| state.declared[*variable].ty == ty).collect()
        };
        let references = of_kind(Type::Node(Base::Int));
        let truths = of_kind(BOOL);
        if !references.is_empty() && self.chance.percent(60) {
            return format!("set {} &x0", state.declared[*self.chance.pick(&references)].name);
        }
        if !truths.is_empty() && self.chance.percent(30) {
            let truth = *self.chance.pick(&truths);
            return format!("set {} {}", state.declared[truth].name, state.values[&truth] != Value::Bool(true));
        }
        // (a freeze is needed though nobody observes it)
        let unlinked = if self.chance.percent(50) { self.unlinked(state) } else { None };
        unlinked.or_else(|| self.observer(state).map(|observer| format!("unobserve {observer}"))).unwrap_or_else(|| {
            let reference = self.variable(state, Type::Node(Base::Int)).expect("there is one");
            format!("set {reference} &x0")
        })
    }

    /// A chain of negations over a variable, over what a reference names or in a right side, and another one over it.
    fn chain(&mut self, state: &State) {
        let reference = self.variable(state, Type::Node(Base::Int)).expect("there is one");
        let number = self.variable(state, INT).expect("there is one");
        // (how many more points reach the greatest depth over two lines of such a chain)
        let bases = [(format!("join({reference})"), 14), (number.clone(), 16), ("v".to_owned(), 13)];
        let (base, more) = self.chance.pick(&bases).clone();
        let body = nested(ONE_LINE - 4, &base);
        let first = self.fresh("d");
        let formula = if base == "v" { format!("bind v = {number} in {body}") } else { body };
        self.plan([line(format!("let {first} {formula}"))]);
        self.tops.push(first.clone());
        match self.chance.below(4) {
            0 => {
                let rest = self.chance.between(more - 2, more + 1);
                let second = self.chain_over(&first, ONE_LINE);
                let third = self.chain_over(&second, rest);
                self.observe_name(&third);
            }
            1 => self.chain_over_chance(&first),
            2 => self.chain_in_a_body(&number, &reference),
            _ => self.lowered_chain(&first),
        }
    }

    fn chain_over(&mut self, inner: &str, count: usize) -> String {
        let name = self.fresh("d");
        self.plan([line(format!("let {name} {}", nested(count, inner)))]);
        name
    }

    /// A chain over a reference that may come to name another chain.
    fn chain_over_chance(&mut self, first: &str) {
        let reference = self.fresh("h");
        let names = if self.chance.percent(50) { first } else { "x0" };
        self.plan([line(format!("var {reference} node int &{names}"))]);
        let count = self.chance.between(8, ONE_LINE);
        let name = self.chain_over(&format!("join({reference})"), count);
        self.observe_name(&name);
        self.tops.push(name);
    }

    fn chain_in_a_body(&mut self, number: &str, reference: &str) {
        let name = self.fresh("d");
        let count = self.chance.between(20, 50);
        let body = format!("add(v, {})", nested(count, &format!("join({reference})")));
        self.plan([line(format!("let {name} bind v = {number} in {body}"))]);
        self.observe_name(&name);
        self.tops.push(name);
    }

    /// A chain that stands high over another one, comes down, and has a third one put over it.
    fn lowered_chain(&mut self, first: &str) {
        let reference = self.fresh("h");
        let second = self.chain_over(first, ONE_LINE);
        self.plan([line(format!("var {reference} node int &{second}"))]);
        let low = self.chain_over(&format!("join({reference})"), 10);
        self.observe_name(&low);
        self.plan([Step::Stabilize, Step::Shows, line(format!("set {reference} &x0"))]);
        if self.chance.percent(50) {
            self.plan([Step::Stabilize]);
        }
        let high = self.chain_over(&low, 40);
        self.observe_name(&high);
        self.plan([Step::Stabilize, Step::Shows]);
    }

    /// Two names that may read one another, and circles through the parts of a bind.
    fn circle(&mut self, state: &State) {
        let truth = self.variable(state, BOOL).expect("there is one");
        let number = self.variable(state, INT).expect("there is one");
        let (one, two) = (self.fresh("h"), self.fresh("h"));
        let (first, second) = (self.fresh("y"), self.fresh("y"));
        self.plan([line(format!("var {one} node int &{number}")), line(format!("var {two} node int &{number}"))]);
        let (yes, no) = match self.chance.below(4) {
            0 => (format!("bind v = {number} in add(v, join({one}))"), format!("bind v = join({two}) in v")),
            1 => (format!("bind v = {number} in join({one})"), format!("neg(join({two}))")),
            _ => (format!("join({one})"), format!("join({two})")),
        };
        self.plan([
            line(format!("let {first} if {truth} then {yes} else {number}")),
            line(format!("let {second} if {truth} then {number} else {no}")),
            line(format!("set {one} &{second}")),
            line(format!("set {two} &{first}")),
        ]);
        self.observe_name(&first);
        self.observe_name(&second);
        self.plan([Step::Stabilize, Step::Shows]);
        for _ in 0..self.chance.between(1, 3) {
            let literal = self.chance.percent(50);
            self.plan([line(format!("set {truth} {literal}"))]);
            if self.chance.percent(30) {
                self.set(state);
            }
            self.plan([Step::Stabilize, Step::Shows]);
        }
    }

    /// A name that a test, a reference or a bind turns away from in the round in which it comes to stand on a circle
    /// or too deep.
    fn passed(&mut self, state: &State) {
        let number = self.variable(state, INT).expect("there is one");
        let truth = self.variable(state, BOOL).expect("there is one");
        let (reference, name, reader) = (self.fresh("h"), self.fresh("p"), self.fresh("y"));
        let inner = self.chance.pick(&["join", "neg(join", "bind v = x0 in add(v, join"]).to_owned();
        let close = ")".repeat(inner.matches('(').count());
        self.plan([
            line(format!("var {reference} node int &{number}")),
            line(format!("let {name} {inner}({reference}){close}")),
        ]);
        let (formula, away, back) = match self.chance.below(3) {
            0 => (
                format!("if {truth} then {name} else {number}"),
                format!("set {truth} false"),
                format!("set {truth} true"),
            ),
            1 => {
                let other = self.fresh("h");
                self.plan([line(format!("var {other} node int &{name}"))]);
                (format!("join({other})"), format!("set {other} &{number}"), format!("set {other} &{name}"))
            }
            _ => (
                format!("bind w = {truth} in if w then {name} else {number}"),
                format!("set {truth} false"),
                format!("set {truth} true"),
            ),
        };
        self.plan([line(format!("let {reader} {formula}")), line(back.clone())]);
        self.observe_name(&reader);
        self.plan([Step::Stabilize, Step::Shows]);
        let block =
            if self.tops.is_empty() || self.chance.percent(50) { name } else { self.chance.pick(&self.tops).clone() };
        let mut changes = [line(away), line(format!("set {reference} &{block}"))];
        if self.chance.percent(50) {
            changes.swap(0, 1);
        }
        self.plan(changes);
        self.plan([Step::Stabilize, Step::Shows]);
        if self.chance.percent(70) {
            self.plan([line(format!("set {reference} &x0"))]);
        }
        self.plan([line(back), Step::Stabilize, Step::Shows]);
    }

    /// Grabs a right side, and lets other things read it, refer to it and observe it.
    fn grab(&mut self, state: &State) {
        let Some(bind) = self.bind(state) else { return };
        let position = state.find(&bind).expect("it was found");
        let ty = state.declared[position].ty;
        let name = self.fresh("g");
        self.plan([line(format!("grab {name} {bind}"))]);
        if self.chance.percent(60) {
            self.observe_name(&name);
        }
        if ty == INT {
            let reader = self.fresh("a");
            match self.chance.below(5) {
                0 => self.plan([line(format!("let {reader} neg({name})"))]),
                1 => self.plan([line(format!("let {reader} bind v = {name} in add(v, {name})"))]),
                2 => self.plan([line(format!("let {reader} bind v = x0 in fold add from v [{name}, 1]"))]),
                3 => {
                    let reference = self.variable(state, Type::Node(Base::Int)).expect("there is one");
                    self.plan([
                        line(format!("set {reference} &{name}")),
                        line(format!("let {reader} add(1, join({reference}))")),
                    ]);
                }
                _ => self.plan([line(format!("let {reader} {name}"))]),
            }
            if self.chance.percent(60) {
                self.observe_name(&reader);
            }
        }
        self.plan([Step::Stabilize, Step::Shows]);
        if self.chance.percent(70) {
            self.set_left(state, position);
        }
    }

    /// Sets the variable that the left of a bind is, where it is one.
    fn set_left(&mut self, state: &State, bind: usize) {
        let Some((left, _)) = state.bind(state.target(bind)) else { return };
        if let Kind::Name(variable) = state.places[left].kind {
            if state.values.contains_key(&variable) {
                let literal = self.literal(state, state.declared[variable].ty);
                self.plan([line(format!("set {} {literal}", state.declared[variable].name))]);
            }
        }
    }

    /// A bind or its grab, which a test turns away from, or whose observer ends, while its left changes.
    fn turned_away(&mut self, state: &State) {
        let truth = self.variable(state, BOOL).expect("there is one");
        let number = self.variable(state, INT).expect("there is one");
        let (bind, grab, reader) = (self.fresh("b"), self.fresh("g"), self.fresh("a"));
        let body = self.formula(state, INT, 2, &mut vec![("v".to_owned(), INT)]);
        let observer = format!("e{bind}");
        self.plan([
            line(format!("let {bind} bind v = {number} in {body}")),
            line(format!("observe {observer} {bind}")),
            line(format!("set {truth} true")),
            Step::Stabilize,
            line(format!("grab {grab} {bind}")),
        ]);
        let read = self.chance.pick(&[grab.clone(), bind.clone(), format!("add({grab}, {bind})")]).clone();
        self.plan([
            line(format!("let {reader} if {truth} then {read} else x0")),
            line(format!("unobserve {observer}")),
        ]);
        self.observe_name(&reader);
        if self.chance.percent(60) {
            self.plan([Step::Stabilize, Step::Shows]);
        }
        let number_then = self.number();
        self.plan([
            line(format!("set {truth} false")),
            line(format!("set {number} {number_then}")),
            Step::Stabilize,
            Step::Shows,
        ]);
        if self.chance.percent(40) {
            let again = self.fresh("g");
            self.plan([line(format!("grab {again} {bind}"))]);
        }
        self.plan([line(format!("set {truth} true"))]);
    }

    /// Two references exchange what they name.
    fn exchange(&mut self, state: &State) {
        let ty = Type::Node(Base::Int);
        let (Some(one), Some(two)) = (self.variable(state, ty), self.variable(state, ty)) else { return };
        let named = |name: &str| match state.values[&state.find(name).expect("it was found")] {
            Value::Node(target) => &state.declared[target].name,
            _ => unreachable!("it refers to a node"),
        };
        self.plan([line(format!("set {one} &{}", named(&two))), line(format!("set {two} &{}", named(&one)))]);
    }

    /// A line that is refused, or that asks for nothing.
    fn wrong_line(&mut self, state: &State) {
        let name = self.name(state, INT).expect("there is one");
        let observer = self.observer(state).unwrap_or("o0".to_owned());
        let new = self.fresh("w");
        let bind = self.bind(state).unwrap_or(name.clone());
        let text = match self.chance.below(17) {
            0 => format!("let {new} add({name}, nothing)"),
            1 => format!("let {new} add({name}, true)"),
            2 => format!("let {name} 1"),
            3 => format!("let {new} twice({name})"),
            4 => format!("set {name} \"text\""),
            5 => format!("set {name} 1"),
            6 => format!("observe {observer} {name}"),
            7 => format!("show {new}"),
            8 => format!("unobserve {new}"),
            9 => format!("grab {new} {name}"),
            10 => format!("grab {new} {bind}"),
            11 => format!("let {new} {}", nested(65, &name)),
            12 => format!("# {}", "x".repeat(4096)),
            13 => "   # a note".to_owned(),
            14 => format!("let {new} freeze {name}"),
            15 => format!("watch {new}"),
            _ => format!("let {new} bind {name} = {name} in if {name} then 1 else 2"),
        };
        self.plan([line(text)]);
    }
}
